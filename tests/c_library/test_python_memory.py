"""The Python module over a library with the memory of python_heap.c: out of memory is raised by each call and
changes nothing, each block is freed, and of several threads one at a time is in a document."""
import threading
import time
from ctypes import c_int, c_long
from bigrosk_ini._calls import library
from bigrosk_ini import Change, Document, ReadOption, Settings, apply, diff, edit_add, edit_delete
from bigrosk_ini import edit_delete_section, edit_rename_key, edit_rename_section, edit_set, merge3

requests = c_long.in_dll(library, "heap_requests")
refused = c_long.in_dll(library, "heap_refused")
blocks = c_long.in_dll(library, "heap_blocks")
shut = c_int.in_dll(library, "heap_shut")
RAW = ReadOption(escapes=False, raw_backslash=True)
TEXT = "k=1\n[s]\nk=2\nj=" + "long" * 200 + "\nk=3\n[t]\n"
CALLS = {
    "load": lambda _: Document(TEXT).is_plain(),
    "set": lambda document: document.set("s", "k", "v" * 999),
    "set a new key": lambda document: document.set("s", "new", "v"),
    "set in a new section": lambda document: document.set("new", "k", "v"),
    "add": lambda document: document.add("s", "k", "v"),
    "text": lambda document: document.text(),
    "get_all": lambda document: document["s"].get_all("k"),
    "pairs": lambda document: document["s"].pairs(),
    "walk": lambda document: document.walk(),
    "edit_set": lambda _: edit_set(TEXT, "s", "k", "v"),
    "edit_add": lambda _: edit_add(TEXT, "s", "k", "v"),
    "edit_delete": lambda _: edit_delete(TEXT, "s", "k"),
    "edit_rename_key": lambda _: edit_rename_key(TEXT, "s", "k", "l"),
    "edit_delete_section": lambda _: edit_delete_section(TEXT, "s"),
    "edit_rename_section": lambda _: edit_rename_section(TEXT, "s", "u"),
    "edit_set by raw backslashes": lambda _: edit_set(TEXT, "s", "k", "v", RAW),
}
SETTINGS_CALLS = {
    "load": lambda _: str(Settings(TEXT)),
    "set": lambda settings: settings.set("s", "k", "v" * 999),
    "set a new key": lambda settings: settings.set("s", "new", "v"),
    "add_section": lambda settings: settings.add_section("new"),
    "remove_option": lambda settings: settings.remove_option("s", "k"),
    "remove_section": lambda settings: settings.remove_section("s"),
    "rename_option": lambda settings: settings.rename_option("s", "k", "l"),
    "rename_section": lambda settings: settings.rename_section("s", "u"),
    "set_all": lambda settings: settings.set_all("s", "k", ["1", "two", "3"]),
    "set_comment": lambda settings: settings.set_comment("s", "k", "; why"),
    "comment_out": lambda settings: settings.comment_out("s", "k"),
    "get_all": lambda settings: settings.get_all("s", "k"),
    "walk": lambda settings: settings.walk(),
    "text": lambda settings: str(settings),
    "diff": lambda settings: diff(Settings("k=2\n[u]\nk=1\n"), settings),
    "apply": lambda settings: apply([Change("s", "k", "2", None), Change("u", "k", None, "v")], settings),
    "under a rule": lambda settings: apply([Change("s", "k", "2", "3")], settings, dialect="git"),
    "merge3": lambda settings: merge3(Settings("k=2\n"), Settings("k=3\nl=1\n"), settings, "ours"),
}


def run(call, document, number):
    """What the call gives, or MemoryError, where each request from this number on is refused; and how many
    requests it made."""
    requests.value, refused.value = 0, number
    try:
        given = call(document)
    except MemoryError:
        given = MemoryError
    finally:
        refused.value = -1
    return given, requests.value


def memory():
    """Each call, refused each request in turn: it raises MemoryError and leaves the document, or does all."""
    before = Document(TEXT).walk()
    for name, call in CALLS.items():
        document, outcomes = Document(TEXT), []
        given, made = run(call, document, -1)
        done = given, document.walk()
        for number in range(made):
            document = Document(TEXT)
            outcomes.append((run(call, document, number)[0], document.walk()))
            assert outcomes[-1] in ((MemoryError, before), done), (name, number, outcomes[-1])
        assert outcomes[0] == (MemoryError, before), name
    del document
    assert blocks.value == 0, blocks.value


def memory_of_settings():
    """The same of settings: their text stays, or all is done."""
    for name, call in SETTINGS_CALLS.items():
        settings, outcomes = Settings(TEXT), []
        given, made = run(call, settings, -1)
        done = given, str(settings)
        for number in range(made):
            settings = Settings(TEXT)
            outcomes.append((run(call, settings, number)[0], str(settings)))
            assert outcomes[-1] in ((MemoryError, TEXT), done), (name, number, outcomes[-1])
        assert outcomes[0] == (MemoryError, TEXT), name
    del settings
    assert blocks.value == 0, blocks.value


def threads():
    """While one thread is in a document another waits for it, and a third is in a document of its own."""
    new, other = "new" * 100, Document("k=other\n")
    for read, wanted in (
        (lambda document: document.get(None, "k"), new),
        (lambda document: "j" in document[None], True),
        (lambda document: document.is_plain(), True),
        (lambda document: document[None].get_all("k"), [new]),
        (lambda document: document[None].pairs(), [("k", new), ("j", "")]),
        (lambda document: document.walk(), [(None, [("k", new), ("j", "")])]),
        (lambda document: document.text(), f"k={new}\nj=\n"),
    ):
        document, had = Document("k=old\nj=\n"), []
        writer = threading.Thread(target=document.set, args=(None, "k", new))
        reader = threading.Thread(target=lambda: had.append(read(document)))
        requests.value, shut.value = 0, 1
        writer.start()
        while requests.value == 0:
            time.sleep(0.001)
        reader.start()
        assert other.get(None, "k") == "other" and writer.is_alive()
        reader.join(0.05)
        assert had == [], "two threads are in one document"
        shut.value = 0
        writer.join()
        reader.join()
        assert had == [wanted], had


memory()
memory_of_settings()
threads()
print("all of the Python module's memory and threads")
