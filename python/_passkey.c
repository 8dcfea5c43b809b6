/* The module garvoeng._passkey: the calls of passkey.h, by CPython's stable ABI of 3.9. Tested, not proved.
 *
 * What a call lends are bytes, which nobody changes, held until it ends; other buffers are copied first. So other threads
 * have the interpreter while a proved call runs. There is no state but the module's own. */
#define PY_SSIZE_T_CLEAN
#include <Python.h>
#include <stdio.h>
#include <string.h>
#include "passkey.h"

#define PROVED(statement) do { Py_BEGIN_ALLOW_THREADS statement; Py_END_ALLOW_THREADS } while (0)

enum { MOST_CHARACTERS = 65536, COSE_ROOM = 1024, TEXT_ROOM = 128, FEW = 16, OF_CREDENTIAL = 9, OF_SIGN_IN = 6 };

/* What is lent of a sign-in, and of a registration. After it come origins, those of pages that may frame, then the ids of a list. */
enum { ACCOUNT, HANDLE, MAY_BE_NONE, RP_ID = MAY_BE_NONE, CHALLENGE, ID, USER, X, Y, RAW_ID, CLIENT_DATA, AUTH_DATA, SIGNATURE, OF_ASSERTION };
enum { NEW_ID, PARTY, NONCE, HOLDER, CREATED, ATTESTATION_OBJECT, OF_REGISTRATION };

typedef struct {
    int8_t digits[256]; /* of base64url; -1 of each other byte */
} module_state;

/* What a call holds until it ends: bytes and where they lie, and what was verified. */
typedef struct {
    PyObject **objects, *few_objects[FEW];
    passkey_bytes *items, few[FEW];
    size_t count;
    uint8_t *message;
    passkey_signature_out signed_by;
} held;

static PyObject *released(held *all, PyObject *result)
{
    while (all->count > 0) Py_DECREF(all->objects[--all->count]);
    if (all->objects != all->few_objects) PyMem_Free(all->objects);
    if (all->items != all->few) PyMem_Free(all->items);
    PyMem_Free(all->message);
    return result;
}

static PyObject *kept(PyObject *object)
{
    Py_INCREF(object);
    return object;
}

/* Lends the bytes of tuples, of which the first has `least` items, and some, the first ones, may be None. 0 where it raised. */
static int lend(held *all, PyObject *const *tuples, int tuple_count, Py_ssize_t least, Py_ssize_t optional)
{
    Py_ssize_t room = 0;
    for (int which = 0; which < tuple_count; which++) room += PyTuple_Size(tuples[which]);
    if (PyErr_Occurred()) return 0;
    if (PyTuple_Size(tuples[0]) != least) return PyErr_SetString(PyExc_TypeError, "a part is missing"), 0;
    all->objects = room <= FEW ? all->few_objects : PyMem_Calloc((size_t)room, sizeof *all->objects);
    all->items = room <= FEW ? all->few : PyMem_Calloc((size_t)room, sizeof *all->items);
    if (all->objects == NULL || all->items == NULL) return PyErr_NoMemory(), 0;
    for (int which = 0; which < tuple_count; which++)
        for (Py_ssize_t at = 0, size = PyTuple_Size(tuples[which]); at < size; at++) {
            PyObject *item = PyTuple_GetItem(tuples[which], at);
            int is_none = item == Py_None && which == 0 && at < optional;
            PyObject *bytes = is_none || PyBytes_CheckExact(item) ? kept(item) : PyBytes_FromObject(item);
            if (bytes == NULL) return 0;
            size_t length = is_none ? 0 : (size_t)PyBytes_Size(bytes);
            all->items[all->count] = (passkey_bytes){length > 0 ? (const uint8_t *)PyBytes_AsString(bytes) : NULL, length};
            all->objects[all->count++] = bytes;
        }
    return 1;
}

/* Whether a verifier said True, and no other value that counts as true; -1 where it raised, or said neither True nor False. */
static int is_true(PyObject *said)
{
    if (said == NULL || said == Py_True || said == Py_False) return said == NULL ? -1 : said == Py_True;
    PyObject *module = PyImport_ImportModule("garvoeng.answers"), *name = module == NULL ? NULL : PyUnicode_InternFromString("refuse");
    PyObject *refuse = name == NULL ? NULL : PyObject_GetAttr(module, name);
    PyObject *none = refuse == NULL ? NULL : PyObject_CallFunction(refuse, "sOs", "verify", said, "True or False");
    Py_XDECREF(none);
    Py_XDECREF(refuse);
    Py_XDECREF(name);
    Py_XDECREF(module);
    if (!PyErr_Occurred()) PyErr_SetString(PyExc_TypeError, "verify answered neither True nor False");
    return -1;
}

/* Asks the host to verify the signature of a response whose parts have at most `size` bytes. Where it is valid `is_valid` is set, and
 * what was verified is lent; where that is not known `answer` tells why. 0 where it raised. */
static int verify_by(PyObject *verify, const passkey_signature_call *call, size_t size, held *all, uint8_t *is_valid, passkey_verified *to,
    uint32_t *answer)
{
    passkey_signature_out *out = &all->signed_by;
    uint32_t asked;
    uint8_t *message = all->message = size < PY_SSIZE_T_MAX / 4 ? PyMem_Malloc(2 * size + 32) : NULL;
    if (message == NULL) return PyErr_NoMemory(), 0;
    uint8_t *signature = message + size + 32;
    PROVED(asked = passkey_signature_asked(call, message, size + 32, signature, size, out));
    if (asked != PASSKEY_ACCEPTED) *answer = asked;
    if (asked != PASSKEY_ACCEPTED || !out->is_asked || out->key.x_size > sizeof out->key.x || out->key.y_size > sizeof out->key.y ||
        out->message_size > size + 32 || out->signature_size > size) return 1;
    PyObject *said = PyObject_CallFunction(verify, "iy#y#y#y#", (int)out->key.algorithm, out->key.x, (Py_ssize_t)out->key.x_size, out->key.y,
        (Py_ssize_t)out->key.y_size, message, (Py_ssize_t)out->message_size, signature, (Py_ssize_t)out->signature_size);
    int answered = is_true(said);
    Py_XDECREF(said);
    if (answered < 0) return 0;
    *is_valid = (uint8_t)answered;
    *to = (passkey_verified){{out->key.algorithm, {out->key.x, out->key.x_size}, {out->key.y, out->key.y_size}}, {message, out->message_size},
        {signature, out->signature_size}};
    return 1;
}

/* A frozen dataclass of these members, whose references are taken over. Their names are some of a tuple. Where a member was not made
 * no other is set: CPython may drop what was raised while it looks a name up. */
static PyObject *made(PyObject *type, PyObject *names, Py_ssize_t first, PyObject **values, Py_ssize_t count)
{
    newfunc create = PyType_Check(type) ? (newfunc)PyType_GetSlot((PyTypeObject *)type, Py_tp_new) : NULL;
    int is_whole = create != NULL;
    if (create == NULL) PyErr_SetString(PyExc_TypeError, "the type can't be made");
    for (Py_ssize_t at = 0; at < count; at++) is_whole = is_whole && values[at] != NULL;
    PyObject *none = is_whole ? PyTuple_New(0) : NULL, *object = none == NULL ? NULL : create((PyTypeObject *)type, none, NULL);
    Py_XDECREF(none);
    for (Py_ssize_t at = 0; at < count; at++) {
        PyObject *name = object == NULL ? NULL : PyTuple_GetItem(names, first + at);
        if (name == NULL || PyObject_GenericSetAttr(object, name, values[at]) < 0) Py_CLEAR(object);
        Py_XDECREF(values[at]);
    }
    return object;
}

/* The map of extensions: the last bytes of a part. */
static PyObject *last(passkey_bytes part, size_t size)
{
    return PyBytes_FromStringAndSize(size <= part.size ? (const char *)part.data + (part.size - size) : "", size <= part.size ? (Py_ssize_t)size : 0);
}

static PyObject *assertion(PyObject *Py_UNUSED(module), PyObject *words)
{
    held all = {0};
    passkey_assertion_out out;
    PyObject *credential_type, *type, *names, *verify, *before, *transports, *eligible, *numbers, *lists[4];
    int has_session, verification, has_credential, algorithm, retired;
    unsigned char profile; long long count;
    if (!PyArg_UnpackTuple(words, "assertion", 12, 12, &credential_type, &type, &names, &verify, &before, &transports, &eligible, &numbers,
            &lists[0], &lists[1], &lists[2], &lists[3]) ||
        !PyArg_ParseTuple(numbers, "bpppiLp", &profile, &has_session, &verification, &has_credential, &algorithm, &count, &retired)) return NULL;
    if (count < 0 || count > UINT32_MAX) return PyErr_Format(PyExc_OverflowError, "the signature counter is out of its limits");
    int is_eligible = PyObject_IsTrue(eligible);
    if (is_eligible < 0 || !lend(&all, lists, 4, OF_ASSERTION, MAY_BE_NONE)) return released(&all, NULL);
    size_t origins = (size_t)PyTuple_Size(lists[1]), pages = (size_t)PyTuple_Size(lists[2]);
    const passkey_bytes *part = all.items, *listed = part + OF_ASSERTION, *ids = listed + origins + pages;
    passkey_assertion_call call = {
        .party = {part[RP_ID], listed, origins, profile, listed + origins, pages},
        .has_session = (uint8_t)has_session,
        .session = {part[CHALLENGE], (uint8_t)verification, all.objects[ACCOUNT] != Py_None, part[ACCOUNT], ids, all.count - (size_t)(ids - part)},
        .has_credential = (uint8_t)has_credential,
        .credential = {part[ID], part[USER], {algorithm, part[X], part[Y]}, (uint32_t)count, eligible != Py_None, (uint8_t)is_eligible, (uint8_t)retired},
        .response = {part[RAW_ID], all.objects[HANDLE] != Py_None, part[HANDLE], part[AUTH_DATA], part[SIGNATURE], part[CLIENT_DATA]}};
    uint32_t answer;
    PROVED(answer = passkey_assertion(&call, &out));
    if (answer == PASSKEY_BAD_SIGNATURE) {
        passkey_signature_call asked = {.assertion = call.response, .key = call.credential.key};
        size_t most = part[AUTH_DATA].size > part[SIGNATURE].size ? part[AUTH_DATA].size : part[SIGNATURE].size;
        if (!verify_by(verify, &asked, most, &all, &call.has_verified, &call.verified, &answer)) return released(&all, NULL);
        if (call.has_verified) PROVED(answer = passkey_assertion(&call, &out));
    }
    if (answer != PASSKEY_ACCEPTED) return released(&all, PyLong_FromUnsignedLong(answer));
    PyObject *now[] = {kept(all.objects[ID]), kept(all.objects[USER]), PyLong_FromLong(algorithm), kept(all.objects[X]), kept(all.objects[Y]),
        PyLong_FromUnsignedLong(out.sign_count), PyBool_FromLong(out.eligible), PyBool_FromLong(retired), kept(transports)};
    PyObject *said[] = {made(credential_type, names, 0, now, OF_CREDENTIAL), kept(before), PyBool_FromLong(out.backed_up),
        PyBool_FromLong(out.user_verified), PyLong_FromLong(out.flags), last(part[AUTH_DATA], out.extensions_size)};
    return released(&all, made(type, names, OF_CREDENTIAL, said, OF_SIGN_IN));
}

static PyObject *registration(PyObject *Py_UNUSED(module), PyObject *words)
{
    held all = {0};
    passkey_registration_out out;
    PyObject *verify, *lists[3];
    unsigned char profile; int accept_none, accept_self, has_session, verification, es256, eddsa, rs256, conditional, attestation, is_full, is_free;
    if (!PyArg_ParseTuple(words, "O(bppppppppppp)OOO", &verify, &profile, &accept_none, &accept_self, &has_session, &verification, &es256, &eddsa,
            &rs256, &conditional, &attestation, &is_full, &is_free, &lists[0], &lists[1], &lists[2]) || !lend(&all, lists, 3, OF_REGISTRATION, 0)) return released(&all, NULL);
    size_t origins = (size_t)PyTuple_Size(lists[1]), pages = (size_t)PyTuple_Size(lists[2]);
    const passkey_bytes *part = all.items, *listed = part + OF_REGISTRATION;
    passkey_registration_call call = {
        .party = {part[PARTY], listed, origins, profile, listed + origins, pages},
        .accept_none = (uint8_t)accept_none, .accept_self = (uint8_t)accept_self, .has_session = (uint8_t)has_session,
        .session = {part[NONCE], part[HOLDER], (uint8_t)verification, (uint8_t)es256, (uint8_t)eddsa, (uint8_t)rs256, (uint8_t)conditional, (uint8_t)attestation},
        .response = {part[ATTESTATION_OBJECT], part[CREATED]},
        .is_free = (uint8_t)is_free, .raw_id = part[NEW_ID], .is_full = (uint8_t)is_full};
    uint32_t answer;
    PROVED(answer = passkey_registration(&call, &out));
    if (answer == PASSKEY_REGISTRATION_BAD_STATEMENT) {
        passkey_signature_call asked = {.is_registration = 1, .profile = profile, .registration = call.response, .attestation = (uint8_t)attestation};
        if (!verify_by(verify, &asked, part[ATTESTATION_OBJECT].size, &all, &call.has_verified, &call.verified, &answer)) return released(&all, NULL);
        if (call.has_verified) PROVED(answer = passkey_registration(&call, &out));
    }
    if (answer != PASSKEY_ACCEPTED || out.id_size > sizeof out.id || out.key.x_size > sizeof out.key.x || out.key.y_size > sizeof out.key.y)
        return released(&all, PyLong_FromUnsignedLong(answer));
    PyObject *extensions = last(part[ATTESTATION_OBJECT], out.extensions_size);
    if (extensions == NULL) return released(&all, NULL);
    return released(&all, Py_BuildValue("y#iy#y#INy#INNiN", out.id, (Py_ssize_t)out.id_size, (int)out.key.algorithm, out.key.x,
        (Py_ssize_t)out.key.x_size, out.key.y, (Py_ssize_t)out.key.y_size, (unsigned int)out.sign_count, PyBool_FromLong(out.eligible),
        out.aaguid, (Py_ssize_t)sizeof out.aaguid, (unsigned int)out.format, PyBool_FromLong(out.user_verified),
        PyBool_FromLong(out.backed_up), (int)out.flags, extensions));
}

/* Four digits as 24 bits; `wrong` gets negative where one is none. */
static inline uint32_t group(const int8_t *digits, const char *from, int *wrong)
{
    int a = digits[(uint8_t)from[0]], b = digits[(uint8_t)from[1]], c = digits[(uint8_t)from[2]], d = digits[(uint8_t)from[3]];
    *wrong |= a | b | c | d;
    return (uint32_t)a << 18 | (uint32_t)b << 12 | (uint32_t)c << 6 | (uint32_t)d;
}

/* The bytes of base64url without padding, in its one spelling. */
static PyObject *decoded(const int8_t *digits, PyObject *text, PyObject *what)
{
    PyObject *letters = PyUnicode_AsASCIIString(text);
    if (letters == NULL && PyErr_ExceptionMatches(PyExc_UnicodeEncodeError)) PyErr_Format(PyExc_ValueError, "%U is not base64url", what);
    if (letters == NULL) return NULL;
    const char *from = PyBytes_AsString(letters);
    Py_ssize_t size = PyBytes_Size(letters), rest = size % 4;
    PyObject *bytes = PyBytes_FromStringAndSize(NULL, size * 3 / 4);
    char *to = bytes == NULL ? NULL : PyBytes_AsString(bytes), end[4] = {'A', 'A', 'A', 'A'};
    uint32_t bits = 0;
    int wrong = rest == 1 ? -1 : 0;
    for (Py_ssize_t left = bytes == NULL || wrong < 0 ? 0 : size; left > 0; left -= 4, from += 4) {
        bits = group(digits, left >= 4 ? from : memcpy(end, from, (size_t)left), &wrong);
        *to++ = (char)(bits >> 16);
        if (left > 2) *to++ = (char)(bits >> 8);
        if (left > 3) *to++ = (char)bits;
    }
    Py_DECREF(letters);
    if (bytes == NULL || (wrong >= 0 && (rest == 0 || (bits & (rest == 2 ? 0xffff : 0xff)) == 0))) return bytes;
    Py_DECREF(bytes);
    return PyErr_Format(PyExc_ValueError, "%U is not base64url", what);
}

/* parts(response, inner, names, required): the bytes of a member of the first dict, and of others of the second, whose texts are
 * base64url; after so many they may be absent, and are None then. What is wrong is named by ValueError. */
static PyObject *parts(PyObject *module, PyObject *words)
{
    module_state *state = PyModule_GetState(module);
    PyObject *from, *inner, *names, *least;
    Py_ssize_t left = MOST_CHARACTERS;
    if (!PyArg_UnpackTuple(words, "parts", 4, 4, &from, &inner, &names, &least)) return NULL;
    if (!PyDict_CheckExact(from) || !PyDict_CheckExact(inner)) return PyErr_Format(PyExc_TypeError, "a response and its parts are dicts");
    Py_ssize_t count = PyTuple_Size(names), required = PyLong_AsSsize_t(least);
    PyObject *all = PyErr_Occurred() ? NULL : PyTuple_New(count);
    for (Py_ssize_t at = 0; all != NULL && at < count; at++, from = inner) {
        PyObject *name = PyTuple_GetItem(names, at), *bytes = NULL;
        PyObject *found = PyUnicode_Check(name) ? PyDict_GetItemWithError(from, name) : PyErr_Format(PyExc_TypeError, "a name is no text");
        PyObject *text = kept(found == NULL ? Py_None : found);
        if (found == NULL && PyErr_Occurred()) bytes = NULL;
        else if (text == Py_None && at >= required) bytes = kept(text);
        else if (!PyUnicode_Check(text)) PyErr_Format(PyExc_ValueError, text == Py_None ? "%U is missing" : "%U is not a text", name);
        else if ((left -= PyUnicode_GetLength(text)) < 0) PyErr_SetString(PyExc_ValueError, "the response is too long");
        else bytes = decoded(state->digits, text, name);
        Py_DECREF(text);
        if (bytes == NULL || PyTuple_SetItem(all, at, bytes) < 0) Py_CLEAR(all);
    }
    return all;
}

static PyObject *refusal_text(PyObject *Py_UNUSED(module), PyObject *words)
{
    int is_registration;
    unsigned int answer;
    uint8_t room[TEXT_ROOM];
    if (!PyArg_ParseTuple(words, "pI", &is_registration, &answer)) return NULL;
    size_t size = passkey_refusal_text((uint32_t)is_registration, answer, room, sizeof room);
    return PyUnicode_DecodeUTF8((const char *)room, size <= sizeof room ? (Py_ssize_t)size : 0, NULL);
}

static PyObject *is_canonical(PyObject *Py_UNUSED(module), PyObject *words)
{
    held all = {0};
    if (!lend(&all, &words, 1, 1, 0)) return released(&all, NULL);
    return released(&all, PyBool_FromLong(passkey_is_canonical(all.items->data, all.items->size)));
}

static PyObject *key_from_cose(PyObject *Py_UNUSED(module), PyObject *words)
{
    held all = {0};
    passkey_key_out key;
    if (!lend(&all, &words, 1, 1, 0)) return released(&all, NULL);
    int is_key = passkey_key_from_cose(all.items->data, all.items->size, &key);
    if (!is_key || key.x_size > sizeof key.x || key.y_size > sizeof key.y) return released(&all, kept(Py_None));
    return released(&all, Py_BuildValue("iy#y#", (int)key.algorithm, key.x, (Py_ssize_t)key.x_size, key.y, (Py_ssize_t)key.y_size));
}

static PyObject *key_to_cose(PyObject *Py_UNUSED(module), PyObject *words)
{
    held all = {0};
    int algorithm;
    PyObject *numbers;
    uint8_t room[COSE_ROOM];
    if (!PyArg_ParseTuple(words, "iO", &algorithm, &numbers) || !lend(&all, &numbers, 1, 2, 0)) return released(&all, NULL);
    size_t size = passkey_key_to_cose(&(passkey_key){algorithm, all.items[0], all.items[1]}, room, sizeof room);
    return released(&all, PyBytes_FromStringAndSize((const char *)room, size <= sizeof room ? (Py_ssize_t)size : 0));
}

static int prepare(PyObject *module)
{
    module_state *state = PyModule_GetState(module);
    const char *digits = "ABCDEFGHIJKLMNOPQRSTUVWXYZabcdefghijklmnopqrstuvwxyz0123456789-_";
    memset(state->digits, -1, sizeof state->digits);
    for (int8_t at = 0; at < 64; at++) state->digits[(uint8_t)digits[at]] = at;
    if (PyModule_AddIntConstant(module, "VERSION_NUMBER", (long)passkey_version()) < 0) return -1;
    return PyModule_AddIntConstant(module, "ABI_VERSION", (long)passkey_abi_version());
}

static PyMethodDef methods[] = {
    {"assertion", assertion, METH_VARARGS, NULL}, {"registration", registration, METH_VARARGS, NULL}, {"parts", parts, METH_VARARGS, NULL},
    {"refusal_text", refusal_text, METH_VARARGS, NULL}, {"is_canonical", is_canonical, METH_VARARGS, NULL},
    {"key_from_cose", key_from_cose, METH_VARARGS, NULL}, {"key_to_cose", key_to_cose, METH_VARARGS, NULL}, {NULL, NULL, 0, NULL}};
/* From CPython 3.12 on a module says that interpreters may have a lock each: Py_mod_multiple_interpreters, which is 3, with
 * Py_MOD_PER_INTERPRETER_GIL_SUPPORTED, which is 2. The stable ABI of 3.9 has no names for them, and earlier versions refuse them. */
static PyModuleDef_Slot slots[] = {{Py_mod_exec, (void *)prepare}, {0, NULL}};
static PyModuleDef_Slot slots_3_12[] = {{Py_mod_exec, (void *)prepare}, {3, (void *)2}, {0, NULL}};
static struct PyModuleDef definition = {PyModuleDef_HEAD_INIT, "garvoeng._passkey", NULL, sizeof(module_state), methods, slots, NULL, NULL, NULL};
static struct PyModuleDef definition_3_12 = {PyModuleDef_HEAD_INIT, "garvoeng._passkey", NULL, sizeof(module_state), methods, slots_3_12, NULL, NULL, NULL};

PyMODINIT_FUNC PyInit__passkey(void)
{
    int major = 0, minor = 0;
    if (sscanf(Py_GetVersion(), "%d.%d", &major, &minor) != 2) return PyErr_Format(PyExc_ImportError, "the version of CPython is not known");
    return PyModuleDef_Init(major == 3 && minor < 12 ? &definition : &definition_3_12);
}
