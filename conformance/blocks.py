"""The blocks of what the program prints: lines of fields, and a line that ends each."""


class Wrong(Exception):
    """The output isn't made of whole blocks."""


def blocks_in(output):
    """Of each block the fields of its lines, and what its end says after their number."""
    block = []
    for line in output.decode().splitlines():
        if not line.startswith("#"):
            block.append(line.split("\t"))
            continue
        end, count, *rest = line.split(" ")
        if (end, count) != ("#end", str(len(block))):
            raise Wrong(line)
        yield block, rest
        block = []
    if block:
        raise Wrong("the last block has no end")
