#!/bin/sh
# Writes a log of version 1 with a million steps, or STEPS:
# sh bench/million.sh moves|memory|mixed|varied|up|down|random|thirty|blocks|turns|shuffled|loads|far [STEPS [PLACES APART]]
# It can be judged from a pipe: sh bench/million.sh moves 10000000 | crates/capcheck/out/capcheck judge
#
# moves   copies c1 to each other register in turn
# memory  stores and loads a capability, and stores and loads eight bytes, granule after granule
# mixed   all of these and changes of addresses, permissions and tags, over 65,000 granules
# varied  as a program with an allocator: bounds of 64 bytes are set for each of 12,000 objects in turn, values of
#         1, 2, 4 and 8 bytes and a pointer are stored there and loaded, and pointers are moved and restricted
#
# The others are hostile to a store of granules:
#
# up, down, random   stores a capability in 65,536 granules that lie 4096 bytes apart, in that order
# thirty             stores and loads eight bytes through thirty registers in turn, 4 MB apart
# blocks             stores a byte in each granule from the lowest on; 65,792 steps fill 65,536 granules
# turns              goes to each of PLACES granules that lie APART bytes apart in turn, and stores a capability there in
#                    the first round and loads it in later ones; 1,000 and 4096 where they are not given. It is of version
#                    2 where there are more than 65,536
# shuffled           the same, with the places in an order drawn at random
# loads              the same as turns, but goes to places at random after the first round
# far                the same as turns, with the places spread over 2^46 bytes by a multiplicative hash
kind=${1:?moves, memory, mixed, varied, up, down, random, thirty, blocks, turns, shuffled, loads or far}
exec awk -v kind="$kind" -v steps="${2:-1000000}" -v places="${3:-1000}" -v apart="${4:-4096}" '
function memory(i,   offset) {
    offset = (int(i / 4) * 16) % 4096 - 2048
    if (i % 4 == 0) return "sc c1 c1 " offset
    if (i % 4 == 1) return "lc c2 c1 " offset " = 1 " root
    if (i % 4 == 2) return "store c1 " offset " 8 0123456789abcdef"
    return "load c1 " offset " 8 = 0123456789abcdef"
}
function mixed(i,   address) {
    address = sprintf("%016x", 4096 + 16 * (int(i / 8) % 65000))
    if (i % 8 == 0) return "setaddr c2 c1 " address " = 1 ffff1ffffc018004" address
    if (i % 8 == 1) return "sc c1 c2 0"
    if (i % 8 == 2) return "lc c4 c2 0 = 1 " root
    if (i % 8 == 3) return "store c2 8 8 0000000000000001"
    if (i % 8 == 4) return "load c2 8 8 = 0000000000000001"
    if (i % 8 == 5) return "move c5 c2 = 1 ffff1ffffc018004" address
    if (i % 8 == 6) return "andperm c6 c5 0000000000000004 = 1 00041ffffc018004" address
    return "cleartag c7 c2 = 0 ffff1ffffc018004" address
}
function varied(i,   object, at, next_at, bounds, here, pointer, short) {
    object = int(i / 16)
    at = 65536 + 64 * (object * 37 % 12000)
    bounds = sprintf("ffff1fff%08x", 4160749568 + (at + 64) % 4096 * 16384 + at % 16384)
    here = "c" (3 + object % 13)
    pointer = "c" (16 + object % 13)
    next_at = sprintf("%016x", at + 8)
    at = sprintf("%016x", at)
    short = sprintf("%04x", object % 65536)
    i %= 16
    if (i == 0) return "setaddr c2 c1 " at " = 1 ffff1ffffc018004" at
    if (i == 1) return "setbounds " here " c2 0000000000000040 = 1 " bounds at
    if (i == 2) return "store " here " 0 8 000000000000" short
    if (i == 3) return "store " here " 8 4 cafe" short
    if (i == 4) return "store " here " 12 2 " short
    if (i == 5) return "store " here " 14 1 7f"
    if (i == 6) return "sc c1 " here " 16"
    if (i == 7) return "load " here " 0 8 = 000000000000" short
    if (i == 8) return "load " here " 8 4 = cafe" short
    if (i == 9) return "lc " pointer " " here " 16 = 1 " root
    if (i == 10) return "move c30 " here " = 1 " bounds at
    if (i == 11) return "andperm c31 c30 0000000000000004 = 1 0004" substr(bounds, 5) at
    if (i == 12) return "load c31 14 1 = 7f"
    if (i == 13) return "load " here " 12 2 = " short
    if (i == 14) return "setaddr c30 " here " " next_at " = 1 " bounds next_at
    return "cleartag c29 c30 = 0 " bounds next_at
}
function distant(i,   place, address) {
    place = int(i / 2) % 65536
    if (kind == "down") place = 65535 - place
    if (kind == "random") place = place * 40503 % 65536
    address = sprintf("%016x", 4096 * place)
    if (i % 2 == 0) return "setaddr c2 c1 " address " = 1 ffff1ffffc018004" address
    return "sc c1 c2 0"
}
function turns(i,   round, address) {
    round = int(i / 2 / places)
    if (i % 2 == 1) return round == 0 ? "sc c1 c2 0" : "lc c3 c2 0 = 1 " root
    if (kind == "shuffled") place = order[int(i / 2) % places]
    else if (kind == "turns" || kind == "far" || round == 0) place = i / 2 % places
    else place = (place * 20077 + 12345) % places
    address = kind == "far" ? 16 * spread(place) : apart * place
    address = sprintf("%08x%08x", int(address / 4294967296), address % 4294967296)
    return "setaddr c2 c1 " address " = 1 ffff1ffffc018004" address
}
function spread(place,   half) {
    half = 2097152
    return (place * 1296109 % half * half + place * 1014085) % (half * half)
}
function shuffle(i,   seed, other, place) {
    for (i = 0; i < places; i++) order[i] = i
    seed = 1
    for (i = places - 1; i > 0; i--) {
        seed = seed * 16807 % 2147483647
        other = seed % (i + 1)
        place = order[i]
        order[i] = order[other]
        order[other] = place
    }
}
function thirty(i,   register, address) {
    register = "c" (2 + i % 30)
    address = sprintf("%016x", 4194304 * (i % 30))
    if (i < 30) return "setaddr " register " c1 " address " = 1 ffff1ffffc018004" address
    if (int(i / 30) % 2 == 1) return "store " register " 0 8 0123456789abcdef"
    return "load " register " 0 8 = 0123456789abcdef"
}
function blocks(i,   block, place, address) {
    block = int(i / 257)
    place = i % 257
    if (place > 0) return "store c2 " (16 * place - 2064) " 1 00"
    address = sprintf("%016x", 4096 * block + 2048)
    return "setaddr c2 c1 " address " = 1 ffff1ffffc018004" address
}
BEGIN {
    root = "ffff1ffffc0180040000000000000000"
    print (places > 65536 ? "capcheck 2\nmode strict" : "capcheck 1")
    print "root c1 " root
    if (kind == "shuffled") shuffle()
    for (i = 0; i < steps; i++) {
        if (kind == "moves") print "move c" (2 + i % 30) " c1 = 1 " root
        else if (kind == "memory") print memory(i)
        else if (kind == "mixed") print mixed(i)
        else if (kind == "varied") print varied(i)
        else if (kind == "thirty") print thirty(i)
        else if (kind == "blocks") print blocks(i)
        else if (kind ~ /^(turns|shuffled|loads|far)$/) print turns(i)
        else print distant(i)
    }
    print "end " steps
}'
