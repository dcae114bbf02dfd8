"""The AIM identifiers by which scanners say the types of bar codes."""
from __future__ import annotations

from ._constants import ScanDataType

# The types of codes by the letter of an AIM identifier, and by its letter and digit.
_BY_LETTER = {
    b"A": ScanDataType.SCAN_SDT_Code39, b"C": ScanDataType.SCAN_SDT_Code128, b"E": ScanDataType.SCAN_SDT_EAN13,
    b"F": ScanDataType.SCAN_SDT_Codabar, b"G": ScanDataType.SCAN_SDT_Code93, b"I": ScanDataType.SCAN_SDT_ITF,
    b"L": ScanDataType.SCAN_SDT_PDF417, b"Q": ScanDataType.SCAN_SDT_QRCODE, b"S": ScanDataType.SCAN_SDT_TF,
    b"U": ScanDataType.SCAN_SDT_MAXICODE, b"d": ScanDataType.SCAN_SDT_DATAMATRIX,
    b"e": ScanDataType.SCAN_SDT_GS1DATABAR, b"z": ScanDataType.SCAN_SDT_AZTEC,
}
_BY_LETTER_AND_DIGIT = {
    b"C1": ScanDataType.SCAN_SDT_EAN128, b"E3": ScanDataType.SCAN_SDT_EAN13_S, b"E4": ScanDataType.SCAN_SDT_EAN8,
    b"o1": ScanDataType.SCAN_SDT_OCRA, b"o2": ScanDataType.SCAN_SDT_OCRB,
}


def kind_of(identifier: bytes) -> ScanDataType:
    """The type of a code by its AIM identifier, which is behind its bracket."""
    return _BY_LETTER_AND_DIGIT.get(identifier, _BY_LETTER.get(identifier[:1], ScanDataType.SCAN_SDT_OTHER))
