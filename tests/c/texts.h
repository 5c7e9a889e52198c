/* Small texts, each with the answer that the paper gives: written from the paper, and not from the code. */
#ifndef TEXTS_H
#define TEXTS_H

#include <stddef.h>

/* Lines of a header; H is a whole one, of five lines, so that the next line is 6. */
#define B10 "          "
#define B60 B10 B10 B10 B10 B10 B10
#define B100 B60 B10 B10 B10 B10
#define VERSION "     3.03           OBSERVATION DATA    M                   RINEX VERSION / TYPE\n"
#define LIST_G "G    2 C1C L1C                                              SYS / # / OBS TYPES\n"
#define LIST_R "R    1 C1C                                                  SYS / # / OBS TYPES\n"
#define FIRST "  2024    12    31    23    59   30.0000000     GPS         TIME OF FIRST OBS\n"
#define INTERVAL "    30.000                                                  INTERVAL\n"
#define COMMENT "A comment                                                   COMMENT\n"
#define MARKER "QUAY 7                                                      MARKER NAME\n"
#define END B60 "END OF HEADER\n"
#define H VERSION LIST_G LIST_R FIRST END

/* A list of one code, three letters, and a continuation with one. */
#define ONE(system, code) system "    1 " code B10 B10 B10 B10 B10 "SYS / # / OBS TYPES\n"
#define NEXT(code) "       " code B10 B10 B10 B10 B10 "SYS / # / OBS TYPES\n"

/* A header with a list of 14 codes, so that a continuation is due in line 3. */
#define LIST_14 "G   14 C1C L1C D1C S1C C2W L2W D2W S2W C2L L2L D2L S2L C5Q  SYS / # / OBS TYPES\n"
#define NEXT_14 NEXT("L5Q")

/* Epoch records, at 23:59:30 and :31, with the count of their rows or lines; an event without a time. */
#define AT_30(flag, count) "> 2024 12 31 23 59 30.0000000  " flag count "\n"
#define AT_31(flag, count) "> 2024 12 31 23 59 31.0000000  " flag count "\n"
#define UNTIMED(flag, count) ">                              " flag count "\n"
#define ROW "G05  20000000.125 7        -0.5001\n"

struct case_text {
    size_t number; /* 0: accepted */
    size_t line;
    const char *text;
    size_t length; /* where the text has a byte 0; else 0 */
};

/* With room enough. Numbers 16 and 17 are not of a text alone. */
static const struct case_text case_texts[] = {
    {0, 0, H, 0},
    {0, 0, H AT_30("0", "  2") ROW "R12\n", 0},
    {0, 0, VERSION INTERVAL FIRST COMMENT LIST_R MARKER LIST_G END, 0},
    {0, 0, VERSION LIST_14 NEXT_14 FIRST END, 0},

    {1, 1, "x", 0},
    {1, 1, "\xEF\xBB\xBF" H, 0},
    {1, 1, "     3.03           OBSERVATION DATA    M                   RINEX VERSION / TYPE\r\n", 0},
    {1, 2, VERSION "G    2 C1C\tL1C", 0},
    {1, 3, VERSION LIST_G "\x80\n", 0},
    {1, 6, H "> 2024", 0},
    {1, 7, H AT_30("0", "  1") "G05\0\n", sizeof(H AT_30("0", "  1") "G05\0\n") - 1},
    {1, 7, H AT_30("0", "  1") "G05\x7F\n", 0},
    {1, 7, H AT_30("0", "  1") "G05", 0},
    {1, 7, H AT_30("0", "  1") "x" B100 B100 B100 B100 B100 B100 B100 B100 B100 B100 B100 "\x1F\n", 0},

    {2, 1, B100 B100 B100 B100 B100 B100 B100 B100 B100 B100 "                            \n", 0},
    {2, 2, VERSION B60 "COMMENT" B100 B100 B100 B100 B100 B100 B100 B100 B100 B60 " \n", 0},
    {0, 0, VERSION B60 "COMMENT" B100 B100 B100 B100 B100 B100 B100 B100 B100 B60 "\n" LIST_G FIRST END, 0},
    {2, 7, H AT_30("0", "  1") "G05" B100 B100 B100 B100 B100 B100 B100 B100 B100 B100 "                         \n", 0},
    {0, 0, H AT_30("0", "  1") "G05" B100 B100 B100 B100 B100 B100 B100 B100 B100 B100 "                        \n", 0},

    {3, 1, "", 0},
    {3, 1, "\n", 0},
    {3, 1, "     3.02           OBSERVATION DATA    M                   RINEX VERSION / TYPE\n", 0},
    {3, 1, "     2.11           OBSERVATION DATA    G                   RINEX VERSION / TYPE\n", 0},
    {3, 1, "     3.03           NAVIGATION DATA     M                   RINEX VERSION / TYPE\n", 0},
    {3, 1, "     3.03           OBSERVATION DATA    X                   RINEX VERSION / TYPE\n", 0},
    {3, 1, "     3.03           OBSERVATION DATA    M                   RINEX VERSION / TYPE x\n", 0},
    {3, 1, LIST_G, 0},
    {0, 0, "     3.03           O~free~1234567890123M?free as well?1234 RINEX VERSION / TYPE   \n" LIST_G FIRST END, 0},

    {4, 2, VERSION "\n", 0},
    {4, 2, VERSION B60 "COMMENTS\n", 0},
    {4, 2, VERSION B60 " COMMENT\n", 0},
    {4, 2, VERSION B60 "COMMENT              x\n", 0},
    {4, 3, VERSION LIST_G B60 "SYS / SCALE FACTOR\n", 0},
    {4, 5, VERSION LIST_G LIST_R FIRST AT_30("0", "  0"), 0},
    {4, 3, VERSION LIST_14 B60 "NO LABEL\n", 0},
    {4, 7, H AT_30("4", "  1") B60 "END OF HEADER\n", 0},
    {4, 7, H AT_30("4", "  1") LIST_G, 0},
    {4, 7, H AT_30("4", "  1") VERSION, 0},
    {4, 7, H AT_30("4", "  1") "END OF FILE\n", 0},
    {0, 0, H AT_30("4", "  2") FIRST INTERVAL, 0},

    {5, 2, VERSION VERSION, 0},
    {5, 3, VERSION LIST_G LIST_G, 0},
    {5, 4, VERSION LIST_G FIRST FIRST, 0},
    {5, 4, VERSION LIST_G INTERVAL B60 "INTERVAL\n", 0},
    {5, 2, VERSION END, 0},
    {5, 3, VERSION FIRST END, 0},
    {5, 3, VERSION LIST_G "filled                                                      END OF HEADER\n", 0},
    {5, 3, VERSION LIST_14 FIRST, 0},
    {5, 3, VERSION LIST_14 "     x L5Q                                                  SYS / # / OBS TYPES\n", 0},

    {6, 2, VERSION "G    0                                                      SYS / # / OBS TYPES\n", 0},
    {6, 2, VERSION "G   65 C1C L1C D1C S1C C2W L2W D2W S2W C2L L2L D2L S2L C5Q  SYS / # / OBS TYPES\n", 0},
    {6, 2, VERSION "G    2 C1C C1C                                              SYS / # / OBS TYPES\n", 0},
    {6, 2, VERSION "G    2 C1C     L1C                                          SYS / # / OBS TYPES\n", 0},
    {6, 2, VERSION "G    1 X1C                                                  SYS / # / OBS TYPES\n", 0},
    {6, 2, VERSION "G    1 C0C                                                  SYS / # / OBS TYPES\n", 0},
    {6, 2, VERSION "G    1 C1C L1C                                              SYS / # / OBS TYPES\n", 0},
    {6, 2, VERSION "X    1 C1C                                                  SYS / # / OBS TYPES\n", 0},
    {6, 2, "     3.03           OBSERVATION DATA    R                   RINEX VERSION / TYPE\n" LIST_G, 0},
    {6, 3, VERSION LIST_14 NEXT("C1C"), 0},
    {6, 3, VERSION LIST_G NEXT_14, 0},
    {6, 3, VERSION LIST_G "  2024    12    31    23    59   60.0000000     GPS         TIME OF FIRST OBS\n", 0},
    {6, 3, VERSION LIST_G "  2023     2    29    23    59   30.0000000     GPS         TIME OF FIRST OBS\n", 0},
    {6, 3, VERSION LIST_G "  2024    12    31    23    59   30.0000000     UTC         TIME OF FIRST OBS\n", 0},
    {6, 3, VERSION LIST_G "     0.000                                                  INTERVAL\n", 0},
    {6, 3, VERSION LIST_G "    -1.000                                                  INTERVAL\n", 0},
    {6, 4, VERSION LIST_G FIRST "                                                           xEND OF HEADER\n", 0},
    {0, 0, VERSION LIST_G "  2024     2    29    23    59   59.9999999     IRN         TIME OF FIRST OBS\n" END, 0},

    /* codes that the tables of RINEX 3.03 don't have under the list's system, and some beside them that they have */
    {6, 2, VERSION ONE("G", "C9Q"), 0},
    {6, 2, VERSION "G    2 C1C L1Q                                              SYS / # / OBS TYPES\n", 0},
    {6, 2, VERSION "G    2 C1Q C1C                                              SYS / # / OBS TYPES\n", 0},
    {6, 2, VERSION ONE("G", "C1N"), 0},
    {0, 0, VERSION ONE("G", "L1N") FIRST END, 0},
    {6, 2, VERSION ONE("G", "C1D"), 0},
    {0, 0, VERSION ONE("G", "C2D") FIRST END, 0},
    {6, 2, VERSION ONE("G", "C1c"), 0},
    {6, 2, VERSION ONE("G", "c1C"), 0},
    {0, 0, VERSION ONE("G", "C1 ") FIRST END, 0},
    {6, 2, VERSION ONE("G", "C9 "), 0},
    {6, 2, VERSION ONE("C", "C1I"), 0},
    {0, 0, VERSION ONE("C", "C2I") FIRST END, 0},
    {6, 2, VERSION ONE("C", "C1 "), 0},
    {0, 0, VERSION ONE("C", "C2 ") FIRST END, 0},
    {6, 2, VERSION ONE("G", "C1Z"), 0},
    {0, 0, VERSION ONE("E", "C1Z") ONE("J", "C1Z") FIRST END, 0},
    {6, 2, VERSION ONE("J", "C2W"), 0},
    {6, 2, VERSION ONE("S", "C1P"), 0},
    {6, 2, VERSION ONE("R", "C4A"), 0},
    {6, 2, VERSION ONE("I", "C9Q"), 0},
    {0, 0, VERSION ONE("I", "C9A") FIRST END, 0},
    {6, 3, VERSION LIST_G ONE("R", "C5Q"), 0},
    {6, 3, VERSION LIST_14 NEXT("L5A"), 0},
    {6, 3, VERSION LIST_14 "       L5 Q                                                 SYS / # / OBS TYPES\n", 0},
    {0, 0, VERSION LIST_14 NEXT("L5 ") FIRST END, 0},

    {7, 6, H "\n", 0},
    {7, 6, H END, 0},
    {7, 6, H "x 2024 12 31 23 59 30.0000000  0  0\n", 0},
    {7, 6, H ">x2024 12 31 23 59 30.0000000  0  0\n", 0},
    {7, 6, H "> 2024 13 31 23 59 30.0000000  0  0\n", 0},
    {7, 6, H "> 2023 02 29 23 59 30.0000000  0  0\n", 0},
    {7, 6, H "> 2024 12 31 24 59 30.0000000  0  0\n", 0},
    {7, 6, H "> 2024 12 31 23 59 60.0000000  0  0\n", 0},
    {7, 6, H "> 2024 12 31 23 59 30.0000000  A  0\n", 0},
    {7, 6, H "> 2024 12 31 23 59 30.0000000  0   \n", 0},
    {7, 6, H "> 2024 12 31 23 59 30.0000000  0  0        0.12345678901\n", 0},
    {7, 6, H "> 2024 12 31 23 59 30.0000000  4  0       0.123456789012\n", 0},
    {7, 6, H "> 2024 12 31 23 59 30.0000000  0  0       0.123456789012x\n", 0},
    {7, 6, H UNTIMED("0", "  0"), 0},
    {7, 6, H UNTIMED("5", "  0"), 0},
    {7, 6, H UNTIMED("6", "  0"), 0},
    {7, 8, H AT_30("0", "  1") ROW "R12\n", 0},
    {0, 0, H "> 2024 12 31 23 59 30.0000000  0  0       -.123456789012\n", 0},
    {0, 0, H "> 2024 12 31 23 59 30.0000000  0  0       0.000000000000\n", 0},
    {0, 0, H "> 2024  2 29  0  0  0.0000000  0000\n", 0},
    {0, 0, H UNTIMED("2", "  0"), 0},

    {8, 6, H AT_30("6", "  0"), 0},
    {8, 6, H AT_30("7", "  1") ROW, 0},
    {8, 6, H AT_30("8", "  0"), 0},
    {8, 6, H AT_30("9", "999"), 0},

    {9, 7, H AT_30("0", "  0") AT_30("0", "  0"), 0},
    {9, 7, H AT_31("1", "  0") AT_30("0", "  0"), 0},
    {9, 8, H AT_31("0", "  0") AT_30("4", "  0") AT_31("1", "  0"), 0},
    {0, 0, H AT_31("4", "  0") AT_30("0", "  0") AT_30("4", "  0") AT_31("0", "  0"), 0},

    {10, 7, H AT_30("0", "  1") "\n", 0},
    {10, 7, H AT_30("0", "  1") "g05\n", 0},
    {10, 7, H AT_30("0", "  1") "G00\n", 0},
    {10, 7, H AT_30("0", "  1") "G 5\n", 0},
    {10, 7, H AT_30("0", "  1") "M05\n", 0},
    {10, 8, H AT_30("0", "  2") ROW AT_31("0", "  0"), 0},

    {11, 7, H AT_30("0", "  1") "E05\n", 0},
    {11, 7, H AT_30("0", "  1") "S20         1.00\n", 0},

    {12, 8, H AT_30("0", "  2") ROW ROW, 0},
    {12, 9, H AT_30("0", "  3") ROW "R05\n" "G05                        +1.000\n", 0},
    {0, 0, H AT_30("0", "  1") ROW AT_31("0", "  1") ROW, 0},

    {13, 7, H AT_30("0", "  1") "G05        +1.000\n", 0},
    {13, 7, H AT_30("0", "  1") "G05          1.50\n", 0},
    {13, 7, H AT_30("0", "  1") "G05        1.500 \n", 0},
    {13, 7, H AT_30("0", "  1") "G05       1.5E+00\n", 0},
    {13, 7, H AT_30("0", "  1") "G05         1.5\n", 0},
    {13, 7, H AT_30("0", "  1") "G05  20000000.1258\n", 0},
    {13, 7, H AT_30("0", "  1") "G05  20000000.125 A\n", 0},
    {13, 7, H AT_30("0", "  1") "R05  20000000.125 7         0.000\n", 0},
    {13, 7, H AT_30("0", "  1") "R05                x\n", 0},
    {13, 7, H AT_30("0", "  1") "G05             0\n", 0},
    {13, 7, H AT_30("0", "  1") "G05           0.0\n", 0},
    {13, 7, H AT_30("0", "  1") "G05          0.00\n", 0},
    {13, 7, H AT_30("0", "  1") "G05        +0.000\n", 0},
    {13, 7, H AT_30("0", "  1") "G05         0.00089\n", 0},
    {0, 0, H AT_30("0", "  1") "G05         0.000\n", 0},
    {0, 0, H AT_30("0", "  1") "G050000000000.00019-000000000.00000\n", 0},
    {0, 0, H AT_30("0", "  1") "G05          .000           -.000\n", 0},
    {0, 0, H AT_30("0", "  1") "G059999999999.99979-999999999.99900\n", 0},
    {0, 0, H AT_30("0", "  1") "G05          .35379              0        \n", 0},

    {14, 2, VERSION, 0},
    {14, 3, VERSION LIST_14, 0},
    {14, 5, VERSION LIST_G LIST_R FIRST, 0},
    {14, 7, H AT_30("0", "  1"), 0},
    {14, 8, H AT_30("0", "  2") ROW, 0},
    {14, 8, H AT_30("3", "  2") MARKER, 0},
    {14, 8, H AT_30("3", "  2") COMMENT, 0},

    {15, 6, H AT_30("3", "  0"), 0},
    {15, 7, H UNTIMED("3", "  1") COMMENT, 0},
    {15, 9, H UNTIMED("3", "  1") MARKER UNTIMED("3", "  1") COMMENT MARKER, 0},
    {0, 0, H UNTIMED("3", "  2") MARKER COMMENT, 0},

    /* several faults in one line, and in several */
    {1, 7, H AT_30("0", "  1") "E05\t\n", 0},
    {3, 1, "     3.02           OBSERVATION DATA    M                   NO LABEL            x\n", 0},
    {4, 3, VERSION LIST_G B60 "RINEX VERSION / TYPEx\n", 0},
    {5, 3, VERSION LIST_G "G    0                                                      SYS / # / OBS TYPES\n", 0},
    {1, 2, VERSION "G    1 C9Q                                                  SYS / # / OBS TYPES\t\n", 0},
    {4, 2, VERSION "G    1 C9Q                                                  SYS / # / OBS TYPE\n", 0},
    {4, 3, VERSION LIST_14 "       L5A                                                  SYS / # / OBS TYPES x\n", 0},
    {5, 3, VERSION LIST_G ONE("G", "C9Q"), 0},
    {5, 3, VERSION LIST_14 ONE("G", "C9Q"), 0},
    {6, 2, VERSION ONE("G", "C9Q") FIRST FIRST, 0},
    {7, 7, H AT_31("0", "  0") "> 2024 12 31 23 59 30.0000000  0  x\n", 0},
    {7, 6, H "> 2024 12 31 23 59 60.0000000  6  0\n", 0},
    {10, 7, H AT_30("0", "  1") "X99        +1.000\n", 0},
    {11, 7, H AT_30("0", "  1") "E05        +1.000\n", 0},
    {9, 7, H AT_30("0", "  0") AT_30("0", "  1") "X99\n", 0},
    {4, 7, H UNTIMED("3", "  1") "NO LABEL\n", 0},
};

enum { CASE_TEXTS = sizeof case_texts / sizeof *case_texts };

#endif
