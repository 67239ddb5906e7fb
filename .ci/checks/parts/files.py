"""Files that are read and written whole."""


def octets_of(path: str) -> bytes:
    with open(path, 'rb') as file:
        return file.read()


def text_of(path: str) -> str:
    with open(path, encoding='utf-8') as file:
        return file.read()


def write(path: str, contents: bytes | str) -> None:
    with open(path, 'wb') as file:
        file.write(contents.encode() if isinstance(contents, str) else contents)
