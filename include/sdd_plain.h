/* sdd_plain.h: plain C beside the store for SDD files. Nothing here is proved, and nothing here is in
 * the library: it is the entry's 54 bytes from fields and back, and a sentence for each refusal. */
#ifndef SDD_PLAIN_H
#define SDD_PLAIN_H

#include "sdd.h"

/* What a save puts into the index beside the scan's records, field by field; sdd.h has the layout. The
 * floats are bits, as in sdd_entry: sdd_real4 and sdd_real8 make them of values. */
typedef struct {
  uint32_t horizontal, vertical; /* Real*4 */
  uint8_t  source[16];           /* put blanks at its end: sdd_named does */
  uint32_t scan;                 /* Real*4 */
  uint32_t field4;               /* Real*4: resolution or slew rate */
  uint64_t field8;               /* Real*8: rest frequency or integration time */
  uint32_t lst, date;            /* Real*4 */
  int16_t  mode, number, position;
} sdd_about;

/* The bits of a value. */
static inline void sdd_copy(void *to, const void *from, size_t len) {
  size_t i;
  for (i = 0; i < len; i++) ((unsigned char *)to)[i] = ((const unsigned char *)from)[i];
}

static inline uint32_t sdd_real4(float value) {
  uint32_t bits;
  sdd_copy(&bits, &value, sizeof bits);
  return bits;
}

static inline uint64_t sdd_real8(double value) {
  uint64_t bits;
  sdd_copy(&bits, &value, sizeof bits);
  return bits;
}

/* Sets the source name, with blanks at its end. Answers 0, and sets nothing, where it has more than
 * 16 bytes. */
static inline int sdd_named(sdd_about *about, const char *name) {
  size_t len = 0, i;
  while (name[len] != 0 && len <= 16) len++;
  if (len > 16) return 0;
  for (i = 0; i < 16; i++) about->source[i] = i < len ? (uint8_t)name[i] : (uint8_t)' ';
  return 1;
}

/* Puts a number of `len` bytes, big-endian, and gets one. */
static inline void sdd_put(uint8_t *at, int len, uint64_t number) {
  while (len-- > 0) {
    at[len] = (uint8_t)number;
    number >>= 8;
  }
}

static inline uint64_t sdd_get(const uint8_t *at, int len) {
  uint64_t number = 0;
  int i;
  for (i = 0; i < len; i++) number = number << 8 | at[i];
  return number;
}

/* The 54 bytes of these fields: what sdd_save and sdd_keep are lent. */
static inline void sdd_about_put(const sdd_about *about, uint8_t bytes[SDD_ABOUT]) {
  sdd_put(bytes, 4, about->horizontal);
  sdd_put(bytes + 4, 4, about->vertical);
  sdd_copy(bytes + 8, about->source, 16);
  sdd_put(bytes + 24, 4, about->scan);
  sdd_put(bytes + 28, 4, about->field4);
  sdd_put(bytes + 32, 8, about->field8);
  sdd_put(bytes + 40, 4, about->lst);
  sdd_put(bytes + 44, 4, about->date);
  sdd_put(bytes + 48, 2, (uint16_t)about->mode);
  sdd_put(bytes + 50, 2, (uint16_t)about->number);
  sdd_put(bytes + 52, 2, (uint16_t)about->position);
}

/* The fields of 54 bytes. They are the current form's: an old file has its position code in front of
 * them, and sdd_entry_at gives its fields. */
static inline sdd_about sdd_about_get(const uint8_t bytes[SDD_ABOUT]) {
  sdd_about about;
  about.horizontal = (uint32_t)sdd_get(bytes, 4);
  about.vertical = (uint32_t)sdd_get(bytes + 4, 4);
  sdd_copy(about.source, bytes + 8, 16);
  about.scan = (uint32_t)sdd_get(bytes + 24, 4);
  about.field4 = (uint32_t)sdd_get(bytes + 28, 4);
  about.field8 = sdd_get(bytes + 32, 8);
  about.lst = (uint32_t)sdd_get(bytes + 40, 4);
  about.date = (uint32_t)sdd_get(bytes + 44, 4);
  about.mode = (int16_t)sdd_get(bytes + 48, 2);
  about.number = (int16_t)sdd_get(bytes + 50, 2);
  about.position = (int16_t)sdd_get(bytes + 52, 2);
  return about;
}

/* What rule of a scan is broken, and what to do: the value of refusal 11. */
static inline const char *sdd_rule_sentence(uint32_t rule) {
  switch (rule) {
    case 1:
      return "the scan breaks rule 1, it must have at least 256 bytes, and at most 65,536 to "
             "be saved: take the scan again";
    case 2:
      return "the scan breaks rule 2, it must have 13 to 15 classes: take the scan again";
    case 3:
      return "the scan breaks rule 3, class 1 must start at word 5, class 2 at word 21 or "
             "later, and each class after the one before: take the scan again";
    case 4:
      return "the scan breaks rule 4, HEADLEN must be a multiple of 8 that covers the last "
             "class, within the scan and at most 65,536: take the scan again";
    case 5:
      return "the scan breaks rule 5, DATALEN must be a multiple of 4, at most 65,536, and end "
             "within the scan: take the scan again";
    case 6:
      return "the scan breaks rule 6, HEADLEN and DATALEN together must be the scan's length "
             "to be saved: take the scan again";
    default:
      return "the scan breaks a rule: take the scan again";
  }
}

/* What is wrong and what to do; "" where nothing was refused. The slot of 6, 7 and 8 is in `value`. */
static inline const char *sdd_sentence(sdd_refusal why) {
  switch (why.number) {
    case SDD_TOO_SHORT:
      return "the file has fewer than 512 bytes, so it is no SDD file: check that it was "
             "copied whole";
    case SDD_OLD_FORM:
      return "the file has the old form from before 1993, which is looked at here and not "
             "changed: convert it into a second file, of the current form, and work on that "
             "one";
    case SDD_UNKNOWN_VERSION:
      return "the file is of no version that is known: check that it is an SDD file";
    case SDD_BAD_BOOTSTRAP:
      return "a number in the file's first record is outside its range: take the file from a "
             "backup, or blank a new one";
    case SDD_CUT_SHORT:
      return "the file is shorter than its first record says: it was cut off, copy it again "
             "from its source";
    case SDD_BAD_ENTRY:
      return "the index entry names records that are no data records: the index is damaged, "
             "take the file from a backup";
    case SDD_ENTRY_ABOVE_USED:
      return "the index entry is filled though it lies above the entries in use: the index is "
             "damaged, take the file from a backup";
    case SDD_SHARED_RECORD:
      return "the scan shares a record with one in a smaller slot: the index is damaged, take "
             "the file from a backup";
    case SDD_NO_SUCH_SLOT:
      return "the file has no such slot: give one from 1 to its number of slots";
    case SDD_EMPTY_SLOT:
      return "the slot is empty: list the file to see which slots have a scan";
    case SDD_BAD_SCAN:
      return sdd_rule_sentence(why.value);
    case SDD_NO_EMPTY_SLOT:
      return "every slot has a scan: clear one, or save to a slot to replace its scan";
    case SDD_NO_ROOM:
      return "there are not enough free records in a row for the scan: clear a slot, or use a "
             "file with more room";
    case SDD_JOB_DISAGREES:
      return "the job and the file disagree, something else changed the file or the scan: list "
             "the file, then begin the job again";
    case SDD_NOT_CONFIRMED:
      return "what was read back is not what was written: the scan is not confirmed, check the "
             "device and save it again to the same slot";
    case SDD_BAD_SIZES:
      return "these sizes make no file: N is 2 to 513, L 512 to 4,096, M 64 to L and a divisor "
             "of L, with at most 4,096 slots, and N records must fit";
    case SDD_ANSWER_TOO_LONG:
      return "the answer does not fit into what was lent for it: lend three numbers for each "
             "scan of a list or a search, N records for a conversion, a row of 8,192 numbers "
             "for a file that comes in pieces";
    case SDD_NOT_VERSION_ONE:
      return "the old file says that this scan is not of SDD version 1, so it is not read: "
             "show its records as they stand, or have the station convert it";
    case SDD_NOT_CONVERTIBLE:
      return "the file cannot be converted, it has the wanted form already, holds individual "
             "records, has a scan that is not of SDD version 1, or has a number too large for "
             "the old form: list and check it to see which of these it is, and work on the "
             "file as it is";
    case SDD_NOT_ALL_CAME:
      return "too little of the file has come to judge it: send the rest, or the whole file "
             "again from its first byte on";
    default:
      return "";
  }
}

#endif
