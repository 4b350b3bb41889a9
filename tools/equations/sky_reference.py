"""The turning Earth, a station on the ellipsoid of 1984, the Sun and the shadow, in high precision, from the public formulas:
Greenwich mean sidereal time of 1982 (Aoki et al., Astronomy and Astrophysics 105, 1982), geodetic coordinates by the reduced
latitude, and the low-precision Sun of the Astronomical Almanac by right ascension and declination. It shares nothing with the
definitions. Angles are in degrees where they come in and in radians else, lengths in Earth radii of 6378.135 km."""
import mpmath as mp

DAY_SECONDS = 86400
RADIUS_KM, EQUATOR_KM = "6378.135", "6378.137"
INVERSE_FLATTENING = "298.257223563"


def number(text):
    return mp.mpf(text)


def sidereal_time(at, dut1):
    """Seconds of sidereal time at an instant in seconds from 2000-01-01T12:00:00 UTC, with UT1 - UTC in milliseconds."""
    t = (at + number(dut1) / 1000) / (36525 * DAY_SECONDS)
    return number("67310.54841") + t * (number("3164400184.812866") + t * (number("0.093104") - t * number("6.2e-6")))


def sidereal_turn(at, dut1):
    return 2 * mp.pi * mp.frac(sidereal_time(at, dut1) / DAY_SECONDS)


def unit(longitude, latitude):
    return [mp.cos(latitude) * mp.cos(longitude), mp.cos(latitude) * mp.sin(longitude), mp.sin(latitude)]


def around_pole(vector, angle):
    """A vector of axes that are turned eastward by an angle: its distance from the pole and its height stay."""
    x, y, z = vector
    distance, longitude = mp.hypot(x, y), mp.atan2(y, x)
    return [distance * mp.cos(longitude - angle), distance * mp.sin(longitude - angle), z]


def sun(at):
    """The Sun's angles in degrees, right ascension and declination."""
    days = at / DAY_SECONDS
    anomaly = number("357.528") + number("0.9856003") * days
    g = mp.radians(anomaly)
    longitude = number("280.46") + number("0.9856474") * days + number("1.915") * mp.sin(g) + number("0.02") * 2 * mp.sin(g) * mp.cos(g)
    tilt = number("23.439") - number("4e-7") * days
    la, ep = mp.radians(longitude), mp.radians(tilt)
    ascension = mp.atan2(mp.cos(ep) * mp.sin(la), mp.cos(la))
    return dict(anomaly=anomaly, longitude=longitude, tilt=tilt, ascension=ascension, declination=mp.asin(mp.sin(ep) * mp.sin(la)))


def sun_direction(at):
    found = sun(at)
    return unit(found["ascension"], found["declination"])


def place(lat, lon, metres):
    """By the reduced latitude, whose tangent is that of the latitude times the axes' ratio."""
    ratio = 1 - 1 / number(INVERSE_FLATTENING)
    phi, la, height = mp.radians(lat), mp.radians(lon), number(metres) / 1000
    beta = mp.atan2(ratio * mp.sin(phi), mp.cos(phi))
    equator = number(EQUATOR_KM)
    across = equator * mp.cos(beta) + height * mp.cos(phi)
    along = equator * ratio * mp.sin(beta) + height * mp.sin(phi)
    return [part / number(RADIUS_KM) for part in (across * mp.cos(la), across * mp.sin(la), along)]


def sight(lat, lon, metres, at, dut1, position):
    """The range, and the direction by two turns of the axes: eastward by the longitude, then up by the latitude."""
    fixed = around_pole(position, sidereal_turn(at, dut1))
    toward = [a - b for a, b in zip(fixed, place(lat, lon, metres))]
    outward, east, along = around_pole(toward, mp.radians(lon))
    up, _, north = [mp.hypot(outward, along) * part for part in unit(mp.mpf(0), mp.atan2(along, outward) - mp.radians(lat))]
    distance = mp.sqrt(outward**2 + east**2 + along**2)
    return distance, dict(east=east / distance, north=north / distance, up=up / distance)


def shadow(position, direction):
    """The depth by the law of cosines, the height over the cylinder by the cross product."""
    x, y, z = position
    a, b, c = direction
    chord = (x - a) ** 2 + (y - b) ** 2 + (z - c) ** 2
    cross = (y * c - z * b) ** 2 + (z * a - x * c) ** 2 + (x * b - y * a) ** 2
    return dict(p=(x**2 + y**2 + z**2 + 1 - chord) / 2, g=cross - 1)


def elevation_sine(lat, lon, at, dut1):
    """Of the Sun, by its hour angle."""
    found, phi = sun(at), mp.radians(lat)
    hour = sidereal_turn(at, dut1) + mp.radians(lon) - found["ascension"]
    down = found["declination"]
    return mp.sin(phi) * mp.sin(down) + mp.cos(phi) * mp.cos(down) * mp.cos(hour)
