#!/usr/bin/env python3
"""Prints the script that the program replay reads: every call, every refusal, and a line that is no call."""

FIRST = 2**48 - 3072  # the last three rounds that a head has
SLOTS = 53
DARK, BROKEN, PLOAM, DATA = 0, 1, 2, 3
# place: first letter and number of the serial, delay in bits
ONUS = {0: (1, 15392), 1: (2, 0), 2: (3, 32000), 3: (4, 7), 5: (5, 1)}
CALENDAR = [0] * 8 + [1] * 8 + [3] + [255] * 35


def serial(place):
    return bytes.fromhex("4d554c4b") + ONUS[place][0].to_bytes(4, "big")


def in_window(frame, slot):
    late = frame % 16
    return (late == 14 and 106 - slot <= 72) or late == 15


def owner(frame, slot):
    """The place of an ordinary slot; none in a window."""
    if in_window(frame, slot):
        return None
    if slot == 1:
        return (15 * (frame // 16) + frame % 16) % 64
    place = CALENDAR[slot - 2]
    return None if place == 255 else place


def record(kind, offset=0, message=bytes(12)):
    return bytes([kind, 0]) + offset.to_bytes(4, "big", signed=True) + message


def in_service(place, age):
    return 2048 + 16 * place + 15 < age < 2160


def served(place, age, slot):
    """What is heard of an ONU in service: one goes dark, one breaks, one keeps still, one comes too late."""
    since = age - (2048 + 16 * place + 15)
    if place == 0 and since > 30 or place == 2:
        return record(DARK)
    if place == 1 and since > 30:
        return record(BROKEN)
    late = 5 if place == 3 and since > 30 else 1
    return record(PLOAM if slot == 1 else DATA, late, bytes([place, 1]) + bytes(10))


def heard(age, slot):
    frame = FIRST + age
    if frame % 16 == 15 and slot == SLOTS and frame // 16 % 64 in ONUS:
        place = frame // 16 % 64
        message = bytes([place, 3, 0]) + serial(place) + bytes(1)
        if place == 5:
            return record(BROKEN)
        if age == 1024 + 16 * place + 15:
            return record(PLOAM, -ONUS[place][1], message)
        if age == 2048 + 16 * place + 15:
            return record(PLOAM, -1, message)
        return record(DARK)
    place = owner(frame, slot)
    if place in ONUS and in_service(place, age):
        return served(place, age, slot)
    return record(DARK)


def report(age):
    records = b"".join(heard(age, slot) for slot in range(1, SLOTS + 1))
    return "dark" if records == bytes(954) else records.hex()


def frames(count, age):
    for i in range(age, age + count):
        print("send")
        print("settle", report(i))
        if i % 1024 in (15, 31, 47, 63, 95, 120, 300):
            for place in ONUS:
                print("look", place)


def first_calls(calendar):
    print("# A head that was not set up yet")
    print("look 3\nlook 64\nlook three\nrelease 3\nhold 3\nsettle dark\nsend 95\nwhat is this")
    print(f"setup 5 aa55aa {FIRST} {calendar}")
    print(f"setup 8 aa55aa 1000 {calendar}")
    print(f"setup 8 aa55aa {2**48} {calendar}")
    print(f"setup 8 aa55aa {FIRST} -")
    print(f"setup 8 aa55aa {FIRST} {calendar[:-2]}40")
    print(f"setup 8 aa55 {FIRST} {calendar}")
    print(f"setup 16 aa55aa {FIRST} {calendar}")
    print(f"setup 8 aa55aa {FIRST} {calendar}")
    print("\n# ONUs")
    for place in ONUS:
        print("enter", place, serial(place).hex())
    print("enter 64", serial(0).hex(), "\nenter 0 4d554c4b00000009\nenter 9", serial(0).hex())
    print("enter 63 4d554c4b00000063\nhold 63\nhold 63\nlook 63\nrelease 63\nrelease 63\nlook 63\nhold 63")
    print(f"setup 8 aa55aa {FIRST} {calendar}\ndump")


def last_calls():
    print("# No frame is left")
    print("send\nlook 0\nlook 1\nlook 2\nlook 3\nsettle dark\ndump")


def main():
    first_calls(bytes(CALENDAR).hex())
    print("\n# Four frames out at once, and their reports one after the other")
    print("send\nsend\nsend\nsend\nsend\nsettle -")
    print("\n".join("settle " + report(age) for age in range(4)))
    frames(3064, 4)
    print("send\nsend\nsend\nsend")
    print("\n".join("settle " + report(age) for age in range(3068, 3070)))
    last_calls()


main()
