/* Numbers of fields, as document 01 counts them. */
#ifndef FIELDS_H
#define FIELDS_H

enum {
    RECORD_TYPE = 1,
    RECORD_NUMBER = 2,
    IH_PREFIX = 2,
    IH_BATCH = 3,
    ULI = 3,
    IP_BIRTH = 25,
    II_TYPE = 4,
    II_HISTORICAL = 5,
    II_DATE = 6,
    II_VACCINE = 8,
    II_SITE = 9,
    II_METHOD = 10,
    II_REASON = 11,
    II_DOSAGE = 12,
    II_DOSAGE_TYPE = 13,
    II_MANUFACTURER = 14,
    II_LOT = 15,
    IE_ANTIGEN = 4,
    IN_DATE = 5,
    IN_REASON = 6,
    IA_ANTIGEN = 4
};

#endif
