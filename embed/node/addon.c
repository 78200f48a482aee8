// The sandboxes of wasi.h for Node, by N-API. sandbox.js makes a class of them, and alone uses what is exported here.
//
// A sandbox stays as long as JavaScript holds it, or one of its imports. All calls of it come by the one thread of
// their environment, and none of them calls JavaScript before it has answered, so there is one at a time.
#include <node_api.h>
#include <stdbool.h>
#include <stdlib.h>
#include <string.h>

#include "zurgwenad/calls.h"

#define MOST_BEHIND 3                    // values that a function is given behind a sandbox
#define MOST_REPORTED ((size_t)1 << 16)  // bytes of a report for which room is made before its length is asked for

struct held;

// An import of a guest: the number of a call, and the sandbox that it is made on.
struct import {
    struct held *held;
    uint32_t number;
};

struct held {
    wasi_sandbox sandbox;
    size_t holders;   // values of JavaScript by which the sandbox is reached
    uint32_t ended;   // the code by which the guest ended, or 0
    uint32_t status;  // what the guest gave proc_exit
    napi_ref stop;    // the function that makes an exception of a code and a status
    napi_ref memory;  // the guest's memory, or none yet
    napi_ref buffer;  // its bytes as they were last lent: they are detached once the memory grows
    uint8_t *bytes;
    size_t length;
    struct import imports[CALL_COUNT];
};

static uint8_t no_bytes;  // where a length is 0 a pointer isn't null

static napi_value fail(napi_env env, const char *words) {
    bool pending = false;
    napi_is_exception_pending(env, &pending);
    if (!pending) {
        napi_throw_error(env, NULL, words);
    }
    return NULL;
}

static void drop_reference(napi_env env, napi_ref *reference) {
    if (*reference) {
        napi_delete_reference(env, *reference);
        *reference = NULL;
    }
}

static void release(napi_env env, void *data, void *hint) {
    struct held *held = data;
    (void)hint;
    held->holders -= 1;
    if (held->holders == 0) {
        wasi_end(&held->sandbox);
        drop_reference(env, &held->stop);
        drop_reference(env, &held->memory);
        drop_reference(env, &held->buffer);
        free(held);
    }
}

// Takes the memory's bytes where they were never taken, or aren't what they were.
static bool take_bytes(napi_env env, struct held *held) {
    napi_value memory, buffer;
    bool detached = true;
    if (held->buffer) {
        napi_get_reference_value(env, held->buffer, &buffer);
        napi_is_detached_arraybuffer(env, buffer, &detached);
    }
    if (!detached) {
        return true;
    }
    if (!held->memory) {
        fail(env, "no memory is lent: give the sandbox the guest's by `lend`, `start` or `initialize`");
        return false;
    }
    void *bytes;
    bool is_buffer = false;
    if (napi_get_reference_value(env, held->memory, &memory) != napi_ok ||
        napi_get_named_property(env, memory, "buffer", &buffer) != napi_ok ||
        napi_is_arraybuffer(env, buffer, &is_buffer) != napi_ok || !is_buffer ||
        napi_get_arraybuffer_info(env, buffer, &bytes, &held->length) != napi_ok) {
        fail(env, "the memory has no bytes of its own that can be lent");
        return false;
    }
    held->bytes = held->length > 0 ? bytes : &no_bytes;
    drop_reference(env, &held->buffer);
    return napi_create_reference(env, buffer, 1, &held->buffer) == napi_ok;
}

// One argument as WebAssembly hands it to JavaScript: a Number where it has 32 bits, and a BigInt where it has 64.
static bool take_argument(napi_env env, napi_value given, char kind, uint64_t *word) {
    if (kind == 'i') {
        int32_t number;
        napi_status status = napi_get_value_int32(env, given, &number);
        *word = (uint32_t)number;
        return status == napi_ok;
    }
    bool lossless;
    return napi_get_value_bigint_uint64(env, given, word, &lossless) == napi_ok;
}

static bool take_arguments(napi_env env, const char *kinds, napi_value *given, uint64_t *words) {
    for (size_t place = 0; kinds[place] != 0; place += 1) {
        if (!take_argument(env, given[place], kinds[place], &words[place])) {
            napi_throw_type_error(env, NULL, "a call of preview1 takes Numbers, and BigInts where it has 64 bits");
            return false;
        }
    }
    return true;
}

// Throws what says how the guest ended.
static napi_value throw_stop(napi_env env, struct held *held) {
    napi_value stop, undefined, words[2], error;
    if (napi_get_reference_value(env, held->stop, &stop) != napi_ok || napi_get_undefined(env, &undefined) != napi_ok ||
        napi_create_uint32(env, held->ended, &words[0]) != napi_ok ||
        napi_create_uint32(env, held->status, &words[1]) != napi_ok ||
        napi_call_function(env, undefined, stop, 2, words, &error) != napi_ok || napi_throw(env, error) != napi_ok) {
        return fail(env, "the guest is stopped");
    }
    return NULL;
}

// A guest's call. One that was stopped may have caught that: it is told so again, and nothing is called.
static napi_value on_call(napi_env env, napi_callback_info info) {
    napi_value given[MOST_ARGUMENTS], answer;
    uint64_t words[MOST_ARGUMENTS] = {0};
    size_t count = MOST_ARGUMENTS;
    void *data;
    napi_get_cb_info(env, info, &count, given, NULL, &data);
    struct import *import = data;
    struct held *held = import->held;
    if (held->ended) {
        return throw_stop(env, held);
    }
    if (!take_bytes(env, held) || !take_arguments(env, calls[import->number].kinds, given, words)) {
        return NULL;
    }
    uint32_t code = wasi_call(&held->sandbox, held->bytes, held->length, import->number, words, MOST_ARGUMENTS);
    if (wasi_ends_guest(code)) {
        held->ended = code;
        held->status = code == WASI_EXIT ? (uint32_t)words[0] : 0;
        return throw_stop(env, held);
    }
    return napi_create_uint32(env, code, &answer) == napi_ok ? answer : NULL;
}

// Begins a sandbox over a base, or over the script's own tree where there is none.
static uint32_t start(struct held *held, wasi_base base, const uint8_t *script, size_t length) {
    return base.at ? wasi_start_over(base, &held->sandbox, script, length)
                   : wasi_start(&held->sandbox, script, length);
}

// begin(SCRIPT, STOP, BASE): a sandbox, over a base if there is one, or the code by which the script, which is a
// Uint8Array, is refused.
static napi_value on_begin(napi_env env, napi_callback_info info) {
    napi_value given[3], made;
    size_t count = 3, length;
    void *script, *base = NULL;
    struct held *held = calloc(1, sizeof *held);
    if (!held) {
        return fail(env, "there isn't enough memory");
    }
    if (napi_get_cb_info(env, info, &count, given, NULL, NULL) != napi_ok ||
        napi_get_typedarray_info(env, given[0], NULL, &length, &script, NULL, NULL) != napi_ok ||
        napi_create_reference(env, given[1], 1, &held->stop) != napi_ok) {
        free(held);
        return fail(env, "a sandbox is begun by the bytes of a script");
    }
    napi_get_value_external(env, given[2], &base);  // it stays NULL where none is given
    uint32_t code = start(held, (wasi_base){base}, length > 0 ? script : &no_bytes, length);
    held->holders = 1;
    if (code != 0) {
        release(env, held, NULL);
        return napi_create_uint32(env, code, &made) == napi_ok ? made : NULL;
    }
    if (napi_create_external(env, held, release, NULL, &made) != napi_ok) {
        release(env, held, NULL);
        return fail(env, "there isn't enough memory");
    }
    return made;
}

// The sandbox that a function was given first, and as many values behind it.
static struct held *take_held_and(napi_env env, napi_callback_info info, napi_value *behind, size_t more) {
    napi_value given[1 + MOST_BEHIND];
    size_t count = 1 + more;
    void *held = NULL;
    if (napi_get_cb_info(env, info, &count, given, NULL, NULL) != napi_ok ||
        napi_get_value_external(env, given[0], &held) != napi_ok) {
        fail(env, "this is no sandbox");
        return NULL;
    }
    memcpy(behind, given + 1, more * sizeof *behind);
    return held;
}

// The sandbox that a function was given first, and the value behind it if there is one.
static struct held *take_held(napi_env env, napi_callback_info info, napi_value *behind) {
    return take_held_and(env, info, behind, behind ? 1 : 0);
}

static bool add_import(napi_env env, struct held *held, uint32_t number, napi_value imports) {
    struct import *import = &held->imports[number];
    napi_value function;
    *import = (struct import){held, number};
    if (napi_create_function(env, calls[number].name, NAPI_AUTO_LENGTH, on_call, import, &function) != napi_ok ||
        napi_add_finalizer(env, function, held, release, NULL, NULL) != napi_ok) {
        return false;
    }
    held->holders += 1;
    return napi_set_named_property(env, imports, calls[number].name, function) == napi_ok;
}

// imports(SANDBOX): the functions of preview1 by their names.
static napi_value on_imports(napi_env env, napi_callback_info info) {
    struct held *held = take_held(env, info, NULL);
    napi_value imports;
    if (!held || napi_create_object(env, &imports) != napi_ok) {
        return NULL;
    }
    for (uint32_t number = 0; number < CALL_COUNT; number += 1) {
        if (!add_import(env, held, number, imports)) {
            return fail(env, "there isn't enough memory");
        }
    }
    return imports;
}

// lend(SANDBOX, MEMORY): the calls from now on are made on this memory.
static napi_value on_lend(napi_env env, napi_callback_info info) {
    napi_value memory;
    struct held *held = take_held(env, info, &memory);
    if (!held) {
        return NULL;
    }
    drop_reference(env, &held->memory);
    drop_reference(env, &held->buffer);
    if (napi_create_reference(env, memory, 1, &held->memory) != napi_ok) {
        return fail(env, "a guest's memory is a WebAssembly.Memory");
    }
    take_bytes(env, held);
    return NULL;
}

// answered(SANDBOX): how many calls were answered; undefined of one that was ended.
static napi_value on_answered(napi_env env, napi_callback_info info) {
    struct held *held = take_held(env, info, NULL);
    napi_value answered;
    if (!held || !held->sandbox.at) {
        return NULL;
    }
    return napi_create_double(env, (double)wasi_answered(&held->sandbox), &answered) == napi_ok ? answered : NULL;
}

// A list of BigInts.
static napi_value list_of(napi_env env, const uint64_t *numbers, size_t length) {
    napi_value list, number;
    if (napi_create_array_with_length(env, length, &list) != napi_ok) {
        return fail(env, "there isn't enough memory");
    }
    for (size_t place = 0; place < length; place += 1) {
        if (napi_create_bigint_uint64(env, numbers[place], &number) != napi_ok ||
            napi_set_element(env, list, (uint32_t)place, number) != napi_ok) {
            return fail(env, "there isn't enough memory");
        }
    }
    return list;
}

// quotaUsed(SANDBOX): how many makings and how many grown bytes are counted, as a list of two BigInts.
static napi_value on_quota_used(napi_env env, napi_callback_info info) {
    struct held *held = take_held(env, info, NULL);
    uint64_t used[2];
    if (!held || wasi_quota_used(&held->sandbox, &used[0], &used[1]) != 0) {
        return NULL;
    }
    return list_of(env, used, 2);
}

// commit(SANDBOX): a base of its tree, which is never given back, or the code by which there is none.
static napi_value on_commit(napi_env env, napi_callback_info info) {
    struct held *held = take_held(env, info, NULL);
    wasi_base base = {0};
    napi_value made;
    if (!held) {
        return NULL;
    }
    uint32_t code = wasi_commit(&held->sandbox, &base);
    napi_status status = code == 0 ? napi_create_external(env, (void *)base.at, NULL, NULL, &made)
                                   : napi_create_uint32(env, code, &made);
    return status == napi_ok ? made : fail(env, "there isn't enough memory");
}

// kept(SANDBOX): the numbers of the nodes that it has worked on, a list of BigInts, or the code by which there is none.
static napi_value on_kept(napi_env env, napi_callback_info info) {
    struct held *held = take_held(env, info, NULL);
    uint64_t none, *numbers = NULL;
    size_t length = 0;
    napi_value told = NULL;
    if (!held) {
        return NULL;
    }
    uint32_t code = wasi_kept(&held->sandbox, &none, 0, &length);
    if (code == WASI_SHORT) {
        numbers = malloc(length * sizeof *numbers);
        code = numbers ? wasi_kept(&held->sandbox, numbers, length, &length) : WASI_NO_MEMORY;
    }
    if (code == 0) {
        told = list_of(env, numbers, length);
    } else if (napi_create_uint32(env, code, &told) != napi_ok) {
        fail(env, "there isn't enough memory");
    }
    free(numbers);
    return told;
}

// Asks for the report with some room, and with as much as it needs where that was too little.
static uint32_t take_report(struct held *held, uint8_t **text, size_t *length) {
    uint32_t code = WASI_SHORT;
    *text = NULL;
    *length = MOST_REPORTED;
    while (code == WASI_SHORT) {
        size_t room = *length;
        free(*text);
        *text = malloc(room);
        if (!*text) {
            return WASI_NO_MEMORY;
        }
        code = wasi_report(&held->sandbox, *text, room, length);
    }
    return code;
}

// report(SANDBOX): the text of the report as a Buffer, or the code by which there is none.
static napi_value on_report(napi_env env, napi_callback_info info) {
    struct held *held = take_held(env, info, NULL);
    napi_value told = NULL;
    uint8_t *text;
    size_t length;
    if (!held) {
        return NULL;
    }
    uint32_t code = take_report(held, &text, &length);
    napi_status status = code == 0 ? napi_create_buffer_copy(env, length, text, NULL, &told)
                                   : napi_create_uint32(env, code, &told);
    free(text);
    return status == napi_ok ? told : fail(env, "there isn't enough memory");
}

// A number that JavaScript gave as a BigInt.
static bool take_number(napi_env env, napi_value given, uint64_t *number) {
    bool lossless = false;
    if (napi_get_value_bigint_uint64(env, given, number, &lossless) == napi_ok && lossless) {
        return true;
    }
    fail(env, "a number of a node, an offset or a length is a BigInt");
    return false;
}

// node(SANDBOX, NUMBER): what is told of a node, as a list of ten BigInts, or the code by which there is none. A time is
// two of them, seconds as 64 bits and nanoseconds.
static napi_value on_node(napi_env env, napi_callback_info info) {
    napi_value given, told;
    struct held *held = take_held(env, info, &given);
    uint64_t number;
    wasi_node_record node;
    if (!held || !take_number(env, given, &number)) {
        return NULL;
    }
    uint32_t code = wasi_node(&held->sandbox, number, &node);
    if (code != 0) {
        return napi_create_uint32(env, code, &told) == napi_ok ? told : NULL;
    }
    const uint64_t words[] = {
        node.filetype, node.links, node.size, node.removed,
        (uint64_t)node.atime.seconds, node.atime.nanoseconds, (uint64_t)node.mtime.seconds, node.mtime.nanoseconds,
        (uint64_t)node.btime.seconds, node.btime.nanoseconds,
    };
    return list_of(env, words, sizeof words / sizeof *words);
}

// read(SANDBOX, NUMBER, FROM, BYTES): how many bytes of a node are put in front of a Buffer, as a BigInt, or the code by
// which none are.
static napi_value on_read(napi_env env, napi_callback_info info) {
    napi_value given[3], told;
    struct held *held = take_held_and(env, info, given, 3);
    uint64_t number, from;
    void *bytes;
    size_t room, length = 0;
    if (!held || !take_number(env, given[0], &number) || !take_number(env, given[1], &from)) {
        return NULL;
    }
    if (napi_get_buffer_info(env, given[2], &bytes, &room) != napi_ok) {
        return fail(env, "bytes are read into a Buffer");
    }
    uint32_t code = wasi_read(&held->sandbox, number, from, room > 0 ? bytes : &no_bytes, room, &length);
    napi_status status = code == 0 ? napi_create_bigint_uint64(env, length, &told)
                                   : napi_create_uint32(env, code, &told);
    return status == napi_ok ? told : fail(env, "there isn't enough memory");
}

// entry(SANDBOX, DIRECTORY, NAME): the number under a name, which is a Buffer, as a BigInt, or the code by which there is
// none.
static napi_value on_entry(napi_env env, napi_callback_info info) {
    napi_value given[2], told;
    struct held *held = take_held_and(env, info, given, 2);
    uint64_t directory, number;
    void *name;
    size_t length;
    if (!held || !take_number(env, given[0], &directory)) {
        return NULL;
    }
    if (napi_get_buffer_info(env, given[1], &name, &length) != napi_ok) {
        return fail(env, "a name is a Buffer");
    }
    uint32_t code = wasi_entry(&held->sandbox, directory, length > 0 ? name : &no_bytes, length, &number);
    napi_status status = code == 0 ? napi_create_bigint_uint64(env, number, &told)
                                   : napi_create_uint32(env, code, &told);
    return status == napi_ok ? told : fail(env, "there isn't enough memory");
}

// entries(SANDBOX, DIRECTORY): the listing of a directory as a Buffer, or the code by which there is none.
static napi_value on_entries(napi_env env, napi_callback_info info) {
    napi_value given, told = NULL;
    struct held *held = take_held(env, info, &given);
    uint64_t directory;
    uint8_t *text = NULL;
    size_t length = 0;
    if (!held || !take_number(env, given, &directory)) {
        return NULL;
    }
    uint32_t code = wasi_entries(&held->sandbox, directory, &no_bytes, 0, &length);
    if (code == WASI_SHORT) {
        text = malloc(length);
        code = text ? wasi_entries(&held->sandbox, directory, text, length, &length) : WASI_NO_MEMORY;
    }
    napi_status status = code == 0 ? napi_create_buffer_copy(env, length, text ? text : &no_bytes, NULL, &told)
                                   : napi_create_uint32(env, code, &told);
    free(text);
    return status == napi_ok ? told : fail(env, "there isn't enough memory");
}

// output(SANDBOX, ERROR): what the guest wrote so far to the standard error, or to the standard output, as a Buffer.
static napi_value on_output(napi_env env, napi_callback_info info) {
    napi_value given, told;
    struct held *held = take_held(env, info, &given);
    bool error;
    uint64_t total;
    size_t length;
    void *bytes;
    if (!held || napi_get_value_bool(env, given, &error) != napi_ok ||
        wasi_output(&held->sandbox, error, 0, &no_bytes, 0, &length, &total) != 0) {
        return NULL;
    }
    if (napi_create_buffer(env, total, &bytes, &told) != napi_ok) {
        return fail(env, "there isn't enough memory");
    }
    wasi_output(&held->sandbox, error, 0, total > 0 ? bytes : &no_bytes, total, &length, &total);
    return told;
}

// end(SANDBOX): its tree and all else are given back. An ended one stays.
static napi_value on_end(napi_env env, napi_callback_info info) {
    struct held *held = take_held(env, info, NULL);
    if (held) {
        wasi_end(&held->sandbox);
    }
    return NULL;
}

static bool export_function(napi_env env, napi_value exports, const char *name, napi_callback callback) {
    napi_value function;
    return napi_create_function(env, name, NAPI_AUTO_LENGTH, callback, NULL, &function) == napi_ok &&
           napi_set_named_property(env, exports, name, function) == napi_ok;
}

NAPI_MODULE_INIT() {
    bool made = export_function(env, exports, "begin", on_begin) &&
                export_function(env, exports, "imports", on_imports) &&
                export_function(env, exports, "lend", on_lend) &&
                export_function(env, exports, "answered", on_answered) &&
                export_function(env, exports, "quotaUsed", on_quota_used) &&
                export_function(env, exports, "commit", on_commit) && export_function(env, exports, "kept", on_kept) &&
                export_function(env, exports, "report", on_report) && export_function(env, exports, "node", on_node) &&
                export_function(env, exports, "read", on_read) && export_function(env, exports, "entry", on_entry) &&
                export_function(env, exports, "entries", on_entries) &&
                export_function(env, exports, "output", on_output) && export_function(env, exports, "end", on_end);
    return made ? exports : fail(env, "there isn't enough memory");
}
