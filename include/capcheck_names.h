/*
 * capcheck_names.h: the names and sentences of capcheck.h as C strings that stay valid: literals, which no call writes.
 *
 * capcheck_refusal_name and the others of capcheck.h return arrays, so a pointer into a result dangles at the end of its
 * statement. The functions of this header return the same texts, and may be kept. They are inline: no library has them.
 */
#ifndef CAPCHECK_NAMES_H
#define CAPCHECK_NAMES_H

#include <stdint.h>

/* The name of a refusal as a verdict shows it, such as "BoundsEscape" for 11; "" for a number that is none. */
static inline const char *capcheck_refusal_text(uint8_t number) {
    switch (number) {
    case 1: return "BadHeader";
    case 2: return "LineTooLong";
    case 3: return "BadLine";
    case 4: return "Misplaced";
    case 5: return "Truncated";
    case 6: return "WrongCount";
    case 7: return "PlaceTaken";
    case 8: return "UnsoundRoot";
    case 9: return "SourceUntagged";
    case 10: return "SourceSealed";
    case 11: return "BoundsEscape";
    case 12: return "NotExact";
    case 13: return "NotRepresentable";
    case 14: return "AuthorityUntagged";
    case 15: return "AuthoritySealed";
    case 16: return "AuthorityPermission";
    case 17: return "AuthorityBounds";
    case 18: return "TypeOutOfRange";
    case 19: return "TypeMismatch";
    case 20: return "Misaligned";
    case 21: return "StoreCapPermission";
    case 22: return "StoreLocalPermission";
    case 23: return "WrongResult";
    case 24: return "LimitPassed";
    case 25: return "BadMode";
    case 26: return "AddressTaken";
    case 27: return "OutsideHeap";
    case 28: return "Overlaps";
    case 29: return "NotLive";
    case 30: return "UnsoundResult";
    case 31: return "BeyondSource";
    case 32: return "SealChanged";
    case 33: return "NotInvokable";
    case 34: return "NoCapability";
    case 35: return "HasOwner";
    case 36: return "StillHeld";
    case 37: return "NoOwner";
    case 38: return "AlreadyFreed";
    case 39: return "OwnerFreed";
    case 40: return "NoObject";
    case 41: return "NotOwned";
    case 255: return "BadArgument";
    default: return "";
    }
}

/* A sentence that says why a line is refused, such as "The authority is sealed." for 15; "" for every other number. */
static inline const char *capcheck_refusal_sentence_text(uint8_t number) {
    switch (number) {
    case 1: return "The first line is neither `capcheck 1` nor `capcheck 2`.";
    case 2: return "The line has more than 95 bytes.";
    case 3: return "The line has none of the forms of the log's version.";
    case 4: return "The line may not stand here.";
    case 5: return "The bytes end before a line feed, or before the end line.";
    case 6: return "The end line's number isn't the number of steps.";
    case 7: return "The root's place has a root already.";
    case 8: return "The root's word isn't sound.";
    case 9: return "The source is untagged, and the step needs a tagged one.";
    case 10: return "The source is sealed, and the step needs an unsealed one.";
    case 11: return "The rounded bounds don't lie inside the source's bounds.";
    case 12: return "Rounding changes the requested bounds.";
    case 13: return "The new address doesn't keep the source's bounds.";
    case 14: return "The authority is untagged.";
    case 15: return "The authority is sealed.";
    case 16: return "The authority lacks the permission that the step needs.";
    case 17: return "The authority's address, or a byte of the access, lies outside the authority's bounds.";
    case 18: return "The authority's address is above the greatest ordinary object type.";
    case 19: return "The source's object type isn't the authority's address, or is reserved.";
    case 20: return "The address of the access is no multiple of its size.";
    case 21: return "A tagged capability is stored without Store Capability.";
    case 22: return "A tagged capability that isn't Global is stored without Store Local Capability.";
    case 23: return "The recorded result or value isn't the machine's.";
    case 24: return "A limit on roots, granules or steps is passed.";
    case 25: return "The line after the version line of version 2 is no mode line.";
    case 26: return "An object lives at this very address.";
    case 27: return "The rounded bounds don't lie inside the root's.";
    case 28: return "The extent shares an address with that of a live object.";
    case 29: return "No object lives at the address that is freed.";
    case 30: return "The recorded word isn't sound.";
    case 31: return "The word has bounds or permissions beyond its source's.";
    case 32: return "The seal isn't kept.";
    case 33: return "The two registers hold no pair for CInvoke.";
    case 34: return "The register has no tag, or is sealed where it has to be unsealed.";
    case 35: return "The register has an owner already.";
    case 36: return "A capability of a freed object still reaches the memory that is handed out.";
    case 37: return "No object owns what is freed.";
    case 38: return "The object was freed before.";
    case 39: return "The object that owns the authority of the access was freed.";
    case 40: return "No object with this number was handed out.";
    case 41: return "The authority of the access has no owner, and a byte of a live object is touched.";
    default: return "";
    }
}

/* The name of a state of a judge's answer, such as "GoesOn" for CAPCHECK_GOES_ON; "" for a number that is none. */
static inline const char *capcheck_state_text(uint8_t number) {
    switch (number) {
    case 0: return "GoesOn";
    case 1: return "Yes";
    case 2: return "No";
    case 3: return "NoMemory";
    case 4: return "NoJudge";
    case 5: return "NoLine";
    default: return "";
    }
}

/* A sentence that says what a state means; "" for a number that is none. */
static inline const char *capcheck_state_sentence_text(uint8_t number) {
    switch (number) {
    case 0: return "No line so far is faulty.";
    case 1: return "The log is accepted: its steps have a run from its roots.";
    case 2: return "The log is rejected: a line is faulty.";
    case 3: return "Out of memory: there is no verdict.";
    case 4: return "The judge isn't open.";
    case 5: return "The bytes aren't one line with its line feed, or a number is out of range.";
    default: return "";
    }
}

/* The word that a line of a kind begins with, such as "setbounds" for CAPCHECK_KIND_SETBOUNDS; "" for a number that is
 * none. */
static inline const char *capcheck_kind_text(uint8_t number) {
    switch (number) {
    case 1: return "capcheck";
    case 2: return "mode";
    case 3: return "root";
    case 4: return "root";
    case 5: return "move";
    case 6: return "cleartag";
    case 7: return "setbounds";
    case 8: return "setboundsexact";
    case 9: return "setaddr";
    case 10: return "andperm";
    case 11: return "seal";
    case 12: return "unseal";
    case 13: return "lc";
    case 14: return "sc";
    case 15: return "load";
    case 16: return "store";
    case 17: return "end";
    case 64: return "derive";
    case 65: return "exchange";
    case 66: return "invoke";
    case 67: return "drop";
    case 68: return "fill";
    case 69: return "object";
    case 70: return "free";
    case 71: return "run";
    case 72: return "root";
    case 73: return "hart";
    default: return "";
    }
}

/* A sentence that says what a line of a kind is; "" for a number that is none. */
static inline const char *capcheck_kind_sentence_text(uint8_t number) {
    switch (number) {
    case 1: return "The first line: the version of the log.";
    case 2: return "The second line of a log of version 2: strict or clear mode.";
    case 3: return "A capability that a register holds at the start.";
    case 4: return "A capability that a granule of memory holds at the start.";
    case 5: return "Copies a register.";
    case 6: return "Copies a register without its tag.";
    case 7: return "Narrows the bounds, rounded.";
    case 8: return "Narrows the bounds, and is refused if they are rounded.";
    case 9: return "Sets the address.";
    case 10: return "Removes permissions.";
    case 11: return "Seals a capability with an authority's object type.";
    case 12: return "Unseals a capability with an authority of its object type.";
    case 13: return "Loads a capability.";
    case 14: return "Stores a capability.";
    case 15: return "Loads data.";
    case 16: return "Stores data, and clears the tag of the granule.";
    case 17: return "The last line: the number of steps.";
    case 64: return "Derives a capability, judged only to be no wider than its source.";
    case 65: return "Exchanges a special register: a call, or CSpecialRW.";
    case 66: return "Calls by a pair of sealed capabilities, CInvoke.";
    case 67: return "Removes the tag of a place.";
    case 68: return "Fills a granule from outside, without a tag.";
    case 69: return "Hands out an object, or widens one.";
    case 70: return "Frees an object.";
    case 71: return "The first line of a run log: its version.";
    case 72: return "A capability that a special register holds at the start.";
    case 73: return "Names the hart whose registers the lines after it name.";
    default: return "";
    }
}

#endif
