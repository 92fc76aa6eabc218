"""How the programs that read their cases from standard input write bytes."""
import re


def shown(data):
    """Bytes as the program reads and prints them."""
    def piece(found):
        byte, count = found[0][0], len(found[0])
        if count >= 10:
            return b'<%02x x %d>' % (byte, count)
        return found[0] if 0x20 <= byte <= 0x7e and byte not in b'<]' else b'<%02x>' % byte * count
    return re.sub(rb'(?s)(.)\1*', piece, data)
