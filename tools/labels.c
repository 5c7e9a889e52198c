/* The labels of header records, in the order in which the rule has them. */
#include <string.h>

#include "columns.h"
#include "labels.h"

const char *const labels[LABELS] = {
    "RINEX VERSION / TYPE", "PGM / RUN BY / DATE", "COMMENT", "MARKER NAME", "MARKER NUMBER", "MARKER TYPE", "OBSERVER / AGENCY",
    "REC # / TYPE / VERS", "ANT # / TYPE", "APPROX POSITION XYZ", "ANTENNA: DELTA H/E/N", "ANTENNA: DELTA X/Y/Z", "ANTENNA: PHASECENTER",
    "ANTENNA: B.SIGHT XYZ", "ANTENNA: ZERODIR AZI", "ANTENNA: ZERODIR XYZ", "CENTER OF MASS: XYZ", "SYS / # / OBS TYPES",
    "SIGNAL STRENGTH UNIT", "INTERVAL", "TIME OF FIRST OBS", "TIME OF LAST OBS", "RCV CLOCK OFFS APPL", "SYS / DCBS APPLIED",
    "SYS / PCVS APPLIED", "SYS / SCALE FACTOR", "SYS / PHASE SHIFT", "GLONASS SLOT / FRQ #", "GLONASS COD/PHS/BIS", "LEAP SECONDS",
    "# OF SATELLITES", "PRN / # OF OBS", "END OF HEADER",
};

size_t label_of(struct line line)
{
    size_t label = 0;
    for (; label < LABELS; label++) {
        size_t size = strlen(labels[label]);
        if (line.width >= LABEL_COLUMN - 1 + size && memcmp(line.bytes + LABEL_COLUMN - 1, labels[label], size) == 0
            && first_filled(line, LABEL_COLUMN + size, LABEL_LAST) == 0)
            break;
    }
    return label;
}
