/* Strings: from UTF-8 that the library has checked, and keys that were seen before. */
#include "safelorim.h"

#define EACH_BYTE UINT64_C(0x0101010101010101)
#define HIGH_BITS (EACH_BYTE * 0x80)

/* The bytes, eight at most, as one number. */
static inline uint64_t word_of(const char *bytes, size_t length) {
  uint64_t word = 0;
  uint32_t low = 0, high = 0;
  if (length >= 8) {
    memcpy(&word, bytes, 8);
    return word;
  }
  if (length >= 4) {
    memcpy(&low, bytes, 4);
    memcpy(&high, bytes + length - 4, 4);
    return (uint64_t)high << 32 | low;
  }
  for (size_t i = 0; i < length; i++)
    word = word << 8 | (unsigned char)bytes[i];
  return word;
}

static inline bool is_ascii(const char *bytes, size_t length) {
  /* The last word overlaps the one before. */
  uint64_t seen = word_of(bytes + (length < 8 ? 0 : length - 8), length < 8 ? length : 8);
  for (size_t i = 0; i + 8 < length; i += 8)
    seen |= word_of(bytes + i, 8);
  return (seen & HIGH_BITS) == 0;
}

/* Reads the character at `at` and returns how many bytes it has. */
static inline size_t read_character(const unsigned char *at, Py_UCS4 *character) {
  if (at[0] < 0x80) {
    *character = at[0];
    return 1;
  }
  if (at[0] < 0xE0) {
    *character = (Py_UCS4)(at[0] & 0x1F) << 6 | (at[1] & 0x3F);
    return 2;
  }
  if (at[0] < 0xF0) {
    *character = (Py_UCS4)(at[0] & 0x0F) << 12 | (Py_UCS4)(at[1] & 0x3F) << 6 | (at[2] & 0x3F);
    return 3;
  }
  *character = (Py_UCS4)(at[0] & 0x07) << 18 | (Py_UCS4)(at[1] & 0x3F) << 12 | (Py_UCS4)(at[2] & 0x3F) << 6 | (at[3] & 0x3F);
  return 4;
}

/* Inline, so that there is a loop for each kind. */
static inline void write_characters(int kind, void *out, const unsigned char *at, const unsigned char *end) {
  Py_UCS4 character = 0;
  for (Py_ssize_t i = 0; at < end; i++) {
    at += read_character(at, &character);
    PyUnicode_WRITE(kind, out, i, character);
  }
}

/* The str of UTF-8 that isn't ASCII. Python wants to know its length and the largest character's kind before. */
static PyObject *wide_text(const unsigned char *bytes, size_t length) {
  Py_ssize_t count = 0;
  unsigned char most = 0;
  for (size_t i = 0; i < length; i++) {
    count += (bytes[i] & 0xC0) != 0x80;
    most = bytes[i] > most ? bytes[i] : most;
  }
  /* A character's first byte is C4 from U+0100 on, and F0 from U+10000 on. */
  PyObject *text = PyUnicode_New(count, most < 0xC4 ? 0xFF : most < 0xF0 ? 0xFFFF : 0x10FFFF);
  if (!text)
    return NULL;
  switch (PyUnicode_KIND(text)) {
  case PyUnicode_1BYTE_KIND:
    write_characters(PyUnicode_1BYTE_KIND, PyUnicode_DATA(text), bytes, bytes + length);
    break;
  case PyUnicode_2BYTE_KIND:
    write_characters(PyUnicode_2BYTE_KIND, PyUnicode_DATA(text), bytes, bytes + length);
    break;
  default:
    write_characters(PyUnicode_4BYTE_KIND, PyUnicode_DATA(text), bytes, bytes + length);
  }
  return text;
}

PyObject *text_of(const char *bytes, size_t length) {
  if (!is_ascii(bytes, length))
    return wide_text((const unsigned char *)bytes, length);
  if (length == 1) /* Python has one object for each */
    return PyUnicode_FromStringAndSize(bytes, 1);
  PyObject *text = PyUnicode_New((Py_ssize_t)length, 0x7F);
  if (text)
    memcpy(PyUnicode_DATA(text), bytes, length);
  return text;
}

static inline bool needs_decoding(uint64_t word) {
  uint64_t other = word ^ (EACH_BYTE * '\\'); /* a zero byte for each backslash */
  return ((word | ((other - EACH_BYTE) & ~other)) & HIGH_BITS) != 0;
}

/* The slot of a key, or KEY_SLOTS if it is long or needs decoding. */
static size_t slot_of(const char *bytes, size_t length) {
  uint64_t sum = length;
  if (length > 64)
    return KEY_SLOTS;
  for (size_t i = 0; i < length; i += 8) {
    /* The same overlap. */
    size_t from = i + 8 > length && length >= 8 ? length - 8 : i;
    uint64_t word = word_of(bytes + from, length - from);
    if (needs_decoding(word))
      return KEY_SLOTS;
    sum = (sum ^ word) * UINT64_C(0x9E3779B97F4A7C15);
    sum ^= sum >> 29;
  }
  return (sum * UINT64_C(0x9E3779B97F4A7C15)) >> (64 - KEY_SLOT_BITS);
}

static bool is_text(PyObject *text, const char *bytes, size_t length) {
  return (size_t)PyUnicode_GET_LENGTH(text) == length && memcmp(PyUnicode_DATA(text), bytes, length) == 0;
}

PyObject *short_key(Module *module, const char *bytes, size_t length) {
  size_t slot = slot_of(bytes, length);
  if (slot == KEY_SLOTS)
    return NULL;
  PyObject *key = module->keys[slot];
  if (key && is_text(key, bytes, length)) {
    Py_INCREF(key);
    return key;
  }
  key = text_of(bytes, length);
  if (key) {
    Py_INCREF(key);
    Py_XSETREF(module->keys[slot], key);
  }
  return key;
}
