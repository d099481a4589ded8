// A chooser that looks for the best message instead of working it out. Same input and output as chooser.c, and none of its coder:
// it goes through candidate messages of each listed type (every uncertainty code, orientation code and confidence code; coordinate
// and altitude codes around the likely ones and at the ends), keeps those that hold the request by document 01's definition, and of
// these the least by (semi-major code, semi-minor code, altitude uncertainty code, octets). Covering is decided on exact powers, not tables.
// A field's condition is tried as soon as the field is fixed, so that the loops inside run only where it is true.
#include "lines.h"
#include "powers.h"

#include <stdio.h>

static struct rule horizontal_rule, vertical_rule;

// ---- A message, and when it holds a request ----

struct message {
    uint32_t type;
    uint32_t south, latitude;
    int32_t longitude;
    uint32_t depth, altitude;
    uint32_t major, minor, orientation, vertical, confidence; // a circle's one code is both axes
};

// Whether codes cover what is asked, worked out once for a request.
static int covers_major[128], covers_minor[128], covers_vertical[128];

static int latitude_holds(const struct message *m, int64_t x)
{
    if ((x < 0) != (m->south == 1))
        return 0;
    int64_t scaled = (x < 0 ? -x : x) * 8388608;
    int64_t low = m->latitude * NINETY_DEGREES, high = low + NINETY_DEGREES;
    return low <= scaled && (scaled < high || (m->latitude == 8388607 && scaled == high));
}

static int longitude_holds(const struct message *m, int64_t x)
{
    int64_t meridian = x == HALF_TURN ? -HALF_TURN : x;
    int64_t scaled = meridian * 16777216;
    int64_t low = m->longitude * WHOLE_TURN;
    return low <= scaled && scaled < low + WHOLE_TURN;
}

static int has_altitude(uint32_t type)
{
    return type == ALTITUDE || type == ELLIPSOID;
}

static int has_horizontal(uint32_t type)
{
    return type == CIRCLE || type == ELLIPSE || type == ELLIPSOID;
}

static int has_axes(uint32_t type)
{
    return type == ELLIPSE || type == ELLIPSOID;
}

static int altitude_holds(const struct message *m, const struct request *q)
{
    if (has_altitude(m->type) != q->has_altitude)
        return 0;
    if (!q->has_altitude)
        return 1;
    int64_t size = q->altitude < 0 ? -(int64_t)q->altitude : q->altitude;
    return (q->altitude < 0) == (m->depth == 1) && 1000 * (int64_t)m->altitude <= size
        && (size < 1000 * ((int64_t)m->altitude + 1) || m->altitude == 32767);
}

static int major_holds(const struct message *m, const struct request *q)
{
    if (has_horizontal(m->type) != (q->horizontal != NOT_ASKED))
        return 0;
    return q->horizontal == NOT_ASKED || covers_major[m->major];
}

static int minor_holds(const struct message *m, const struct request *q)
{
    if (q->horizontal == NOT_ASKED)
        return 1;
    return q->horizontal == ASKED_ELLIPSE ? covers_minor[m->minor] : covers_major[m->minor];
}

static int orientation_holds(const struct message *m, const struct request *q)
{
    if (!has_axes(m->type))
        return 1;
    if (q->horizontal != ASKED_ELLIPSE)
        return m->orientation == 0;
    return 1000 * m->orientation <= q->orientation && q->orientation < 1000 * (m->orientation + 1);
}

static int vertical_holds(const struct message *m, const struct request *q)
{
    if ((m->type == ELLIPSOID) != (q->altitude_uncertainty.given != 0))
        return 0;
    return !q->altitude_uncertainty.given || covers_vertical[m->vertical];
}

static int confidence_holds(const struct message *m, const struct request *q)
{
    if (!has_axes(m->type))
        return !q->confidence.given;
    return q->confidence.given ? m->confidence == q->confidence.value : m->confidence == 0;
}

static int holds(const struct message *m, const struct request *q)
{
    return latitude_holds(m, q->centre.latitude) && longitude_holds(m, q->centre.longitude) && altitude_holds(m, q) && major_holds(m, q)
        && minor_holds(m, q) && orientation_holds(m, q) && vertical_holds(m, q) && confidence_holds(m, q);
}

// ---- The best so far ----

static size_t octets_of(uint32_t type)
{
    return type == POINT ? 7 : type == CIRCLE ? 8 : type == ELLIPSE ? 11 : type == ALTITUDE ? 9 : 14;
}

static int compare(uint64_t left, uint64_t right)
{
    return (left > right) - (left < right);
}

// Below zero if the left message is better.
static int order(const struct message *left, const struct message *right)
{
    int by = compare(left->major, right->major);
    if (by == 0)
        by = compare(left->minor, right->minor);
    if (by == 0)
        by = compare(left->vertical, right->vertical);
    if (by == 0)
        by = compare(octets_of(left->type), octets_of(right->type));
    return by;
}

static struct message best;
static int found, ties;

static void offer(const struct message *m, const struct request *q)
{
    if (!holds(m, q)) {
        fprintf(stderr, "slow: a candidate passed field by field and not as a whole\n");
        exit(1);
    }
    int by = found ? order(m, &best) : -1;
    if (by < 0) {
        best = *m;
        found = 1;
        ties = 0;
    } else if (by == 0) {
        ties++;
    }
}

// ---- Candidates ----

// Numbers around `middle`, and the ends, within least..most, no number twice.
static int neighbours(int64_t middle, int64_t least, int64_t most, int64_t list[16])
{
    int64_t wanted[] = {middle - 2, middle - 1, middle, middle + 1, middle + 2, least, least + 1, 0, 1, -1, most - 1, most};
    int count = 0;
    for (size_t i = 0; i < sizeof wanted / sizeof wanted[0]; i++) {
        int known = wanted[i] < least || wanted[i] > most;
        for (int j = 0; j < count; j++)
            known |= list[j] == wanted[i];
        if (!known)
            list[count++] = wanted[i];
    }
    return count;
}

static void try_uncertainties(struct message *m, const struct request *q)
{
    uint32_t type = m->type;
    for (m->major = 0; m->major < (has_horizontal(type) ? 128u : 1u); m->major++) {
        if (!major_holds(m, q))
            continue;
        uint32_t first = type == CIRCLE ? m->major : 0;
        uint32_t last = type == CIRCLE ? m->major : has_axes(type) ? 127 : 0;
        for (m->minor = first; m->minor <= last; m->minor++) {
            if (!minor_holds(m, q))
                continue;
            for (m->vertical = 0; m->vertical < (type == ELLIPSOID ? 128u : 1u); m->vertical++)
                if (vertical_holds(m, q))
                    offer(m, q);
        }
    }
}

static void try_rest(struct message *m, const struct request *q)
{
    int axes = has_axes(m->type);
    for (m->orientation = 0; m->orientation < (axes ? 180u : 1u); m->orientation++) {
        if (!orientation_holds(m, q))
            continue;
        for (m->confidence = 0; m->confidence < (axes ? 101u : 1u); m->confidence++)
            if (confidence_holds(m, q))
                try_uncertainties(m, q);
    }
}

static void try_altitudes(struct message *m, const struct request *q)
{
    int64_t altitudes[16] = {0};
    int count = has_altitude(m->type) ? neighbours(llabs((long long)q->altitude) / 1000, 0, 32767, altitudes) : 1;
    for (m->depth = 0; m->depth < (has_altitude(m->type) ? 2u : 1u); m->depth++)
        for (int i = 0; i < count; i++) {
            m->altitude = (uint32_t)altitudes[i];
            if (altitude_holds(m, q))
                try_rest(m, q);
        }
}

static void try_type(uint32_t type, const struct request *q)
{
    struct message m = {.type = type};
    int64_t latitudes[16], longitudes[16];
    int latitude_count = neighbours(llabs(q->centre.latitude) * 8388608 / NINETY_DEGREES, 0, 8388607, latitudes);
    int longitude_count = neighbours(q->centre.longitude * 16777216 / WHOLE_TURN, -8388608, 8388607, longitudes);
    for (m.south = 0; m.south < 2; m.south++)
        for (int i = 0; i < latitude_count; i++) {
            m.latitude = (uint32_t)latitudes[i];
            if (!latitude_holds(&m, q->centre.latitude))
                continue;
            for (int j = 0; j < longitude_count; j++) {
                m.longitude = (int32_t)longitudes[j];
                if (longitude_holds(&m, q->centre.longitude))
                    try_altitudes(&m, q);
            }
        }
}

static size_t octets_from(const struct message *m, uint8_t *message)
{
    uint32_t latitude = m->south * 8388608 + m->latitude;
    uint32_t longitude = (uint32_t)(m->longitude < 0 ? m->longitude + 16777216 : m->longitude);
    uint32_t altitude = m->depth * 32768 + m->altitude;
    size_t n = 0;
    message[n++] = (uint8_t)(m->type * 16);
    message[n++] = (uint8_t)(latitude / 65536);
    message[n++] = (uint8_t)(latitude / 256);
    message[n++] = (uint8_t)latitude;
    message[n++] = (uint8_t)(longitude / 65536);
    message[n++] = (uint8_t)(longitude / 256);
    message[n++] = (uint8_t)longitude;
    if (has_altitude(m->type)) {
        message[n++] = (uint8_t)(altitude / 256);
        message[n++] = (uint8_t)altitude;
    }
    if (has_horizontal(m->type))
        message[n++] = (uint8_t)m->major;
    if (has_axes(m->type)) {
        message[n++] = (uint8_t)m->minor;
        message[n++] = (uint8_t)m->orientation;
    }
    if (m->type == ELLIPSOID)
        message[n++] = (uint8_t)m->vertical;
    if (has_axes(m->type))
        message[n++] = (uint8_t)m->confidence;
    return n;
}

static int outside(int64_t x, int64_t limit)
{
    return x > limit || x < -limit;
}

static enum answer search(const struct request *q, uint32_t list, uint8_t *message, size_t room, size_t *length)
{
    (void)room; // always that of the longest message
    *length = 0;
    if (outside(q->centre.latitude, NINETY_DEGREES) || outside(q->centre.longitude, HALF_TURN)
        || (q->horizontal == ASKED_ELLIPSE && q->orientation >= 180000)
        || (q->horizontal == ASKED_ELLIPSE && q->semi_minor > q->semi_major)
        || (q->confidence.given && (q->confidence.value == 0 || q->confidence.value > 100)))
        return OUT_OF_RANGE;
    for (uint32_t k = 0; k < 128; k++) {
        covers_major[k] = covers(&horizontal_rule, k, q->semi_major);
        covers_minor[k] = covers(&horizontal_rule, k, q->semi_minor);
        covers_vertical[k] = covers(&vertical_rule, k, q->altitude_uncertainty.value);
    }
    if ((q->horizontal != NOT_ASKED && !covers_major[127]) || (q->altitude_uncertainty.given && !covers_vertical[127]))
        return TOO_UNCERTAIN;
    found = 0;
    static const uint32_t types[] = {ELLIPSOID, ALTITUDE, ELLIPSE, CIRCLE, POINT};
    for (size_t i = 0; i < sizeof types / sizeof types[0]; i++)
        if (list >> types[i] & 1)
            try_type(types[i], q);
    if (!found)
        return NO_SHAPE;
    if (ties) {
        fprintf(stderr, "slow: two best messages\n");
        exit(1);
    }
    *length = octets_from(&best, message);
    return DONE;
}

int main(void)
{
    prepare_rule(&horizontal_rule, 10000, 11, 10);
    prepare_rule(&vertical_rule, 45000, 41, 40);
    answer_requests(search);
    return 0;
}
