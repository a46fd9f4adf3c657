"""Numbers as bytes, and the checksum of a list of numbers."""


# A number as so many bytes, low byte first.
def low_first(value, size):
    return value.to_bytes(size, "little")


# The checksum of a list of numbers.
def checksum(numbers):
    total = 0
    for number in numbers:
        total = (total * 257 + number) % 1000003
    return total
