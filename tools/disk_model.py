"""What `tiger disks` stores of a scenario, for tools/disk_checks.py: the rules of docs/disks.md, written out here once
more. It shares no code with the crates."""

MOST_PARTS = 4000000  # of all disks together


def parts_of(scenario, library):
    """The parts of each disk in the order in which they are stored; the library has the bytes of each of the files."""
    plan = scenario["plan"]
    count, size = plan["cubs"] * plan["disks"], plan["block"]
    wholes, cut = [[] for _ in range(count)], [[] for _ in range(count)]
    for file, content in zip(scenario["files"], library):
        for number, at in enumerate(range(0, len(content), size)):
            disk = (file["disk"] + number) % count
            block = content[at:at + size]
            wholes[disk].append(block)
            for behind, piece in enumerate(pieces_of(block, plan["pieces"]), 1):
                cut[(disk + behind) % count].append(piece)
    return [whole + pieces for whole, pieces in zip(wholes, cut)]


def pieces_of(block, pieces):
    """The pieces of a block, the first one first."""
    ends = [number * len(block) // pieces for number in range(pieces + 1)]
    return [block[start:end] for start, end in zip(ends, ends[1:])]


def lines_of(parts):
    """The line of each disk."""
    return "".join(f"disk {disk} parts {len(there)} bytes {sum(map(len, there))}\n"
                   for disk, there in enumerate(parts)).encode()


def image_of(parts):
    """The bytes of the image: each disk behind the one before, and each part behind the one before."""
    return b"".join(b"".join(there) for there in parts)


def count_of(scenario, lengths):
    """How many parts all disks have, by the lengths of the files: each block once whole, and each of its pieces once."""
    plan = scenario["plan"]
    return sum(-(-length // plan["block"]) for length in lengths) * (1 + plan["pieces"])


def first_other(parts, byte):
    """The disk and the place of the first part that has another byte than this one; none if there is no such part."""
    place = 0
    for disk, there in enumerate(parts):
        for part in there:
            if part.strip(byte):
                return disk, place
            place += len(part)
    return None
