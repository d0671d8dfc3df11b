/* Every limit and every refusal number by name. The other headers include this one. */
#ifndef ALERT_NUMBERS_H
#define ALERT_NUMBERS_H

/* What is wrong, by its number. Each function says which of them it gives, and in which order. */
enum {
    ALERT_ACCEPTED = 0,
    ALERT_VALUE_TOO_LONG = 1,        /* the value is longer than 4,096 bytes */
    ALERT_VALUE_MISFIT = 2,          /* the value is not of the form of the field: docs/RULES.md, section 1 */
    ALERT_TOO_MANY_ENTRIES = 3,      /* the value has more than 64 entries */
    ALERT_TABLE_TOO_LONG = 4,        /* the table is longer than 8,192 bytes */
    ALERT_TABLE_WRONG_END = 5,       /* the table stops before its counts and lengths are met, or goes on after its last signal */
    ALERT_TABLE_OUT_OF_RANGE = 6,    /* a count or a length of the table is out of range */
    ALERT_TABLE_BAD_FORM = 7,        /* a category's name or a URN is of wrong form or has a capital letter; a URN has more than 8 parts */
    ALERT_TABLE_BAD_CATEGORY = 8,    /* a category stands twice, or no signal uses it; a URN names one that is not there */
    ALERT_TABLE_TWO_OF_CATEGORY = 9, /* one signal has two URNs of the same category */
    ALERT_TABLE_BAD_DEFAULT = 10,    /* signal 0 has a URN */
    ALERT_TABLE_SAME_PLACES = 11,    /* two signals have equal places in all categories */
    ALERT_TABLE_TOO_MANY_NODES = 12, /* the table has more than 64 nodes */
    ALERT_TOO_MANY_STATES = 13,      /* the machine would have more than 256 states */
    ALERT_IMAGE_NO_ROOM = 14,        /* the image does not fit the buffer */
    ALERT_IMAGE_BAD_FORM = 15,       /* the image is not of the form that the table asks for */
    ALERT_IMAGE_WRONG_START = 16,    /* state 0 of the image is not the start */
    ALERT_IMAGE_WRONG_TARGET = 17,   /* a row of the image leads to a state with a wrong signal or status */
    ALERT_NO_ENTRY = 18,             /* the value has no entry k */
    ALERT_TOO_MANY_VALUES = 19,      /* the message has more than 16 values */
    ALERT_NOT_COUNTED = 20,          /* too few records or counts, or a count would pass 4,294,967,295 */
    ALERT_BAD_TREE = 21,             /* a node is unused or repeated or not in its order, its parent is wrong, or a number is not there */
    ALERT_FORM_NO_ROOM = 22,         /* the other form does not fit the buffer, or would be a table of more than 8,192 bytes */
    ALERT_UNKNOWN_AVAILABLE = 23,    /* the set of available signals has one that the table lacks */
    ALERT_SHARED_CATEGORY = 24,      /* the tables of rings and lamps have a category in common */
    ALERT_BAD_LOG = 25,              /* the log is longer than 32,768 bytes, stops early, or goes on after its last call */
    ALERT_SAMPLE_NO_ROOM = 26,       /* the buffer for a sample is shorter than ALERT_SAMPLE_ROOM */
    ALERT_BAD_CLASSES = 27,          /* the classes do not fit the machine in the image; from the proposer, none do */
    ALERT_BAD_RECORD = 28,           /* the record does not belong to this table, or says more than 16 values */
    ALERT_UNKNOWN_NODE = 30,         /* the table has no such node */
    ALERT_UNKNOWN_SIGNAL = 31        /* the table has no such signal */
};

/* Limits: at most so many. */
enum {
    ALERT_MOST_VALUE_BYTES = 4096, /* bytes of a value */
    ALERT_MOST_ENTRIES = 64,       /* entries of a value */
    ALERT_MOST_VALUES = 16,        /* values of one message */
    ALERT_MOST_LABEL_BYTES = 27,   /* bytes of a label */
    ALERT_MOST_TABLE_BYTES = 8192, /* bytes of a table, in either form */
    ALERT_MOST_CATEGORIES = 8,     /* categories of a table */
    ALERT_MOST_NAME_BYTES = 55,    /* bytes of a name: two labels with an `@` between them */
    ALERT_MOST_SIGNALS = 32,       /* signals of a table; as many records are enough for every tally */
    ALERT_MOST_URNS = 8,           /* URNs of a signal */
    ALERT_MOST_URN_BYTES = 255,    /* bytes of a URN in a table */
    ALERT_MOST_URN_PARTS = 8,      /* parts of a URN in a table */
    ALERT_MOST_NODES = 64,         /* nodes of a table */
    ALERT_MOST_SYMBOLS = 128,      /* symbols of a machine: a node has at most two */
    ALERT_MOST_STATES = 256,       /* states of a machine */
    ALERT_MOST_LOG_BYTES = 32768,  /* bytes of a log of calls */
    ALERT_TALLY_COUNTS = 12,       /* counts that tally_value asks for: that of refusal number k is refusals[k - 1] */
    ALERT_SAMPLE_ROOM = 4096       /* the least buffer for a sample; no sample is longer than 2,175 bytes */
};

#endif
