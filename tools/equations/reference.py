"""Near-Earth SGP4 with the constants of WGS-72 as printed, written from Spacetrack Report No. 3 and AIAA 2006-6753 in the
arrangement of the published program (sgp4init, sgp4), in high precision. It shares nothing with the definitions; the values of
the guards on eccentricity, axis and distance are those that docs/EQUATIONS.md names."""
import mpmath as mp

DAY_MINUTES = 1440
REFERENCE = {"xke": "0.0743669161", "radius": "6378.135", "j2": "1.082616e-3", "j3": "-2.53881e-6", "j4": "-1.65597e-6"}


class Satellite:
    def __init__(self, no_kozai, ecco, inclo, nodeo, argpo, mo, bstar):
        """Revolutions per day, and degrees."""
        number = mp.mpf
        deg = mp.pi / 180
        self.xke, self.re, self.j2, j3, j4 = (number(REFERENCE[x]) for x in ("xke", "radius", "j2", "j3", "j4"))
        self.j3oj2 = j3 / self.j2
        self.ecco, self.bstar = number(ecco), number(bstar)
        self.inclo, self.nodeo, self.argpo, self.mo = number(inclo) * deg, number(nodeo) * deg, number(argpo) * deg, number(mo) * deg
        self.no_kozai = number(no_kozai) / (DAY_MINUTES / (2 * mp.pi))
        self.un_kozai()
        self.isimp = self.perigee_km() < 220
        self.init(j4)

    def un_kozai(self):
        two_thirds = mp.mpf(2) / 3
        eccsq = self.ecco * self.ecco
        self.omeosq = 1 - eccsq
        self.rteosq = mp.sqrt(self.omeosq)
        self.cosio = mp.cos(self.inclo)
        self.sinio = mp.sin(self.inclo)
        self.cosio2 = self.cosio * self.cosio
        self.ak = mp.power(self.xke / self.no_kozai, two_thirds)
        self.d1 = mp.mpf(3) / 4 * self.j2 * (3 * self.cosio2 - 1) / (self.rteosq * self.omeosq)
        self.dela = self.d1 / (self.ak * self.ak)
        self.adel = self.ak * (1 - self.dela * self.dela - self.dela * (mp.mpf(1) / 3 + 134 * self.dela * self.dela / 81))
        self.delb = self.d1 / (self.adel * self.adel)
        self.no = self.no_kozai / (1 + self.delb)
        self.ao = mp.power(self.xke / self.no, two_thirds)
        self.po = self.ao * self.omeosq
        self.con42 = 1 - 5 * self.cosio2
        self.con41 = -self.con42 - self.cosio2 - self.cosio2
        self.rp = self.ao * (1 - self.ecco)

    def init(self, j4):
        ss = 78 / self.re + 1
        qzms2t = ((120 - mp.mpf(78)) / self.re) ** 4
        self.ss, self.qzms2t = ss, qzms2t
        pinvsq = 1 / (self.po * self.po)
        self.tsi = tsi = 1 / (self.ao - ss)
        self.eta = eta = self.ao * self.ecco * tsi
        self.etasq = etasq = eta * eta
        eeta = self.ecco * eta
        self.psisq = psisq = mp.fabs(1 - etasq)
        self.coef = coef = qzms2t * tsi ** 4
        self.coef1 = coef1 = coef / psisq ** mp.mpf("3.5")
        self.cc2 = coef1 * self.no * (
            self.ao * (1 + mp.mpf("1.5") * etasq + eeta * (4 + etasq))
            + mp.mpf("0.375") * self.j2 * tsi / psisq * self.con41 * (8 + 3 * etasq * (8 + etasq))
        )
        self.cc1 = self.bstar * self.cc2
        self.cc3 = mp.mpf(0)
        if self.ecco > mp.mpf(1) / 10000:
            self.cc3 = -2 * coef * tsi * self.j3oj2 * self.no * self.sinio / self.ecco
        self.x1mth2 = 1 - self.cosio2
        self.cc4 = 2 * self.no * coef1 * self.ao * self.omeosq * (
            eta * (2 + etasq / 2)
            + self.ecco * (mp.mpf("0.5") + 2 * etasq)
            - self.j2 * tsi / (self.ao * psisq)
            * (
                -3 * self.con41 * (1 - 2 * eeta + etasq * (mp.mpf("1.5") - eeta / 2))
                + mp.mpf("0.75") * self.x1mth2 * (2 * etasq - eeta * (1 + etasq)) * mp.cos(2 * self.argpo)
            )
        )
        self.cc5 = mp.mpf(0)
        if not self.isimp:
            self.cc5 = 2 * coef1 * self.ao * self.omeosq * (1 + mp.mpf("2.75") * (etasq + eeta) + eeta * etasq)
        cosio4 = self.cosio2 * self.cosio2
        self.temp1 = mp.mpf("1.5") * self.j2 * pinvsq * self.no
        self.temp2 = self.temp1 * self.j2 * pinvsq / 2
        self.temp3 = mp.mpf("-0.46875") * j4 * pinvsq * pinvsq * self.no
        self.mdot = (
            self.no + self.temp1 * self.rteosq * self.con41 / 2
            + self.temp2 * self.rteosq * (13 - 78 * self.cosio2 + 137 * cosio4) / 16
        )
        self.argpdot = (
            -self.temp1 * self.con42 / 2
            + self.temp2 * (7 - 114 * self.cosio2 + 395 * cosio4) / 16
            + self.temp3 * (3 - 36 * self.cosio2 + 49 * cosio4)
        )
        xhdot1 = -self.temp1 * self.cosio
        self.nodedot = xhdot1 + (self.temp2 * (4 - 19 * self.cosio2) / 2 + 2 * self.temp3 * (3 - 7 * self.cosio2)) * self.cosio
        self.omgcof = self.xmcof = mp.mpf(0)
        if not self.isimp:
            self.omgcof = self.bstar * self.cc3 * mp.cos(self.argpo)
        if not self.isimp and self.ecco > mp.mpf(1) / 10000:
            self.xmcof = -(mp.mpf(2) / 3) * coef * self.bstar / eeta
        self.nodecf = mp.mpf("3.5") * self.omeosq * xhdot1 * self.cc1
        self.t2cof = mp.mpf("1.5") * self.cc1
        self.xlcof = -self.j3oj2 / 4 * self.sinio * (3 + 5 * self.cosio) / (1 + self.cosio)
        self.aycof = -self.j3oj2 / 2 * self.sinio
        self.delmo = (1 + eta * mp.cos(self.mo)) ** 3
        self.sinmao = mp.sin(self.mo)
        self.higher(ss, tsi)

    def higher(self, ss, tsi):
        """The drag terms of higher order, which the simple form has not."""
        self.temp = None
        self.d2 = self.d3 = self.d4 = self.t3cof = self.t4cof = self.t5cof = mp.mpf(0)
        if self.isimp:
            return
        cc1sq = self.cc1 * self.cc1
        self.d2 = 4 * self.ao * tsi * cc1sq
        self.temp = self.d2 * tsi * self.cc1 / 3
        self.d3 = (17 * self.ao + ss) * self.temp
        self.d4 = self.temp * self.ao * tsi * (221 * self.ao + 31 * ss) * self.cc1 / 2
        self.t3cof = self.d2 + 2 * cc1sq
        self.t4cof = (3 * self.d3 + self.cc1 * (12 * self.d2 + 10 * cc1sq)) / 4
        self.t5cof = (3 * self.d4 + 12 * self.cc1 * self.d3 + 6 * self.d2 * self.d2 + 15 * cc1sq * (2 * self.d2 + cc1sq)) / 5

    def constants(self):
        """By the names of the definitions; the angles are not reduced."""
        return {
            "motion": dict(
                i=self.inclo, c=self.cosio, si=self.sinio, e=self.ecco, n=self.no_kozai, a1=self.ak, bb=self.omeosq, b0=self.rteosq,
                d1=self.d1, de1=self.dela, a2=self.adel, de0=self.delb, n0=self.no, a=self.ao, p=self.po, rp=self.rp,
                con41=self.con41, con42=self.con42,
            ),
            "epoch": dict(
                o0=self.nodeo, w0=self.argpo, m0=self.mo, bstar=self.bstar, of_w0=pair(self.argpo), of_m0=pair(self.mo),
                of_twice_w0=pair(2 * self.argpo),
            ),
            "density": dict(
                s=self.ss, qs=self.qzms2t, xi=self.tsi, eta=self.eta, psi=self.psisq, root_of_psi=mp.sqrt(self.psisq), coef=self.coef,
                coef1=self.coef1,
            ),
            "drag": dict(c1=self.cc1, c2=self.cc2, c3=self.cc3, c4=self.cc4, c5=self.cc5),
            "rates": dict(w1=self.temp1, w2=self.temp2, w3=self.temp3, mdot=self.mdot, wdot=self.argpdot, odot=self.nodedot),
            "coefficients": dict(
                omgcof=self.omgcof, xmcof=self.xmcof, nodecf=self.nodecf, t2cof=self.t2cof, xlcof=self.xlcof, aycof=self.aycof,
                delmo=self.delmo,
            ),
            "higher": dict(d2=self.d2, w=self.temp, d3=self.d3, d4=self.d4, t3cof=self.t3cof, t4cof=self.t4cof, t5cof=self.t5cof),
        }

    def kept(self):
        return dict(
            i=self.inclo, c=self.cosio, si=self.sinio, e=self.ecco, w0=self.argpo, o0=self.nodeo, m0=self.mo, bstar=self.bstar, a=self.ao,
            eta=self.eta, con41=self.con41, c5=self.cc5, xmcof=self.xmcof, xlcof=self.xlcof, aycof=self.aycof, delmo=self.delmo,
            sin_m0=self.sinmao, n0=self.no, mdot=self.mdot, wdot=self.argpdot, odot=self.nodedot, c1=self.cc1, c4=self.cc4,
            omgcof=self.omgcof, t2cof=self.t2cof, d2=self.d2, nodecf=self.nodecf, t3cof=self.t3cof, d3=self.d3, t4cof=self.t4cof,
            d4=self.d4, t5cof=self.t5cof,
        )

    def period_minutes(self):
        return 2 * mp.pi / self.no

    def perigee_km(self):
        return (self.rp - 1) * self.re

    @staticmethod
    def guards(secular, mean):
        """Whether the eccentricity, before it is raised, and the semimajor axis are taken."""
        return dict(ecc=mp.mpf("-0.001") <= secular["ecc"] < 1, axis=mean["am"] >= 1)

    def at(self, t):
        """The quantities at t minutes from the epoch; None in place of the position where a guard fails."""
        t = mp.mpf(t)
        t2 = t * t
        xmdf = self.mo + self.mdot * t
        argpdf = self.argpo + self.argpdot * t
        nodem = self.nodeo + self.nodedot * t + self.nodecf * t2
        tempa = 1 - self.cc1 * t
        tempe = self.bstar * self.cc4 * t
        templ = self.t2cof * t2
        mm, argpm, change = xmdf, argpdf, mp.mpf(0)
        if not self.isimp:
            delomg = self.omgcof * t
            delm = self.xmcof * ((1 + self.eta * mp.cos(xmdf)) ** 3 - self.delmo)
            change = delomg + delm
            mm = xmdf + change
            argpm = argpdf - change
            t3 = t2 * t
            t4 = t3 * t
            tempa = tempa - self.d2 * t2 - self.d3 * t3 - self.d4 * t4
            tempe = tempe + self.bstar * self.cc5 * (mp.sin(mm) - self.sinmao)
            templ = templ + self.t3cof * t3 + t4 * (self.t4cof + t * self.t5cof)
        am = mp.power(self.xke / self.no, mp.mpf(2) / 3) * tempa * tempa
        ecc = self.ecco - tempe
        em = ecc if ecc >= mp.mpf(10) ** -6 else mp.mpf(10) ** -6
        xl = mm + self.no * templ
        secular = dict(
            mf=xmdf, wf=argpdf, om=nodem, of_mf=pair(xmdf), g=change, mm=mm, wm=argpm, tempa=tempa, of_mm=pair(mm), tempe=tempe,
            templ=templ, ecc=ecc,
        )
        mean = dict(am=am, em=em, ml=xl, wm=argpm, om=nodem)
        if not all(self.guards(secular, mean).values()):
            return secular, mean, None, None
        periodic, vector = self.position(am, em, xl, argpm, nodem)
        return secular, mean, periodic, vector

    def position(self, am, em, mp_, argpp, nodep):
        """The periodic quantities and the position; where a guard fails its name and None."""
        axnl = em * mp.cos(argpp)
        temp = 1 / (am * (1 - em * em))
        aynl = em * mp.sin(argpp) + temp * self.aycof
        u = mp_ + argpp + temp * self.xlcof * axnl
        if mp.fabs(axnl) + mp.fabs(aynl) >= 1:
            return "eccentricity", None
        eo1 = self.kepler(u, axnl, aynl)
        sineo1, coseo1 = mp.sin(eo1), mp.cos(eo1)
        ecose = axnl * coseo1 + aynl * sineo1
        esine = axnl * sineo1 - aynl * coseo1
        el2 = axnl * axnl + aynl * aynl
        pl = am * (1 - el2)
        if pl <= 0:
            return "semilatus rectum", None
        rl = am * (1 - ecose)
        betal = mp.sqrt(1 - el2)
        part = esine / (1 + betal)
        sinu = am / rl * (sineo1 - aynl - axnl * part)
        cosu = am / rl * (coseo1 - axnl + aynl * part)
        sin2u = (cosu + cosu) * sinu
        cos2u = 1 - 2 * sinu * sinu
        temp1 = self.j2 / 2 / pl
        temp2 = temp1 / pl
        x7thm1 = 7 * self.cosio2 - 1
        mrt = rl * (1 - mp.mpf(3) / 2 * temp2 * betal * self.con41) + temp1 / 2 * self.x1mth2 * cos2u
        delsu = -temp2 / 4 * x7thm1 * sin2u
        xnode = nodep + mp.mpf(3) / 2 * temp2 * self.cosio * sin2u
        xinc = self.inclo + mp.mpf(3) / 2 * temp2 * self.cosio * self.sinio * cos2u
        # the rotation is formed from the angle itself, and not from the sum of sines
        su = mp.atan2(sinu, cosu) + delsu
        length = mp.hypot(sinu, cosu)
        sinsu, cossu = length * mp.sin(su), length * mp.cos(su)
        snod, cnod, sini, cosi = mp.sin(xnode), mp.cos(xnode), mp.sin(xinc), mp.cos(xinc)
        xmx, xmy = -snod * cosi, cnod * cosi
        ux, uy, uz = xmx * sinsu + cnod * cossu, xmy * sinsu + snod * cossu, sini * sinsu
        periodic = dict(
            of_wm=pair(argpp), ax=axnl, v=temp, ay=aynl, u=u, of_root=pair(eo1), ec=ecose, es=esine, el=el2, pl=pl, rl=rl, b=betal,
            su=sinu, cu=cosu, s2=sin2u, c2=cos2u, k1=temp1, k2=temp2, mrt=mrt, du=delsu, xnode=xnode, xinc=xinc, of_du=pair(delsu),
            sw=sinsu, cw=cossu, of_xnode=pair(xnode), of_xinc=pair(xinc),
        )
        if mrt < mp.mpf("1.02"):
            return "distance", None
        return periodic, dict(x=mrt * ux, y=mrt * uy, z=mrt * uz)

    def kepler(self, u, axnl, aynl):
        """By the program's iteration, to the working precision."""
        eo1 = u
        for _ in range(60):
            step = (u - aynl * mp.cos(eo1) + axnl * mp.sin(eo1) - eo1) / (1 - mp.cos(eo1) * axnl - mp.sin(eo1) * aynl)
            eo1 += max(min(step, mp.mpf("0.95")), mp.mpf("-0.95"))
            if mp.fabs(step) < mp.mpf(10) ** (5 - mp.mp.dps):
                break
        return eo1


def pair(angle):
    return dict(sine=mp.sin(angle), cosine=mp.cos(angle))
