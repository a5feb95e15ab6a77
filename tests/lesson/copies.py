"""Copies of the model with one fault each, made as tests/model/one-fault makes them: a lesson has to tell its slip."""

import functools
import importlib.machinery
import importlib.util
import shutil

import support

PLACE = support.TOP / "target/model/lesson-faults"
SOURCES = [support.MODEL_SOURCES / "model", support.MODEL_SOURCES / "faults", support.MODEL_SOURCES / "one-fault"]


@functools.cache
def one_fault():
    """The program tests/model/one-fault as a module, with its copies in a place of their own."""
    loader = importlib.machinery.SourceFileLoader("one_fault", str(support.MODEL_SOURCES / "one-fault"))
    module = importlib.util.module_from_spec(importlib.util.spec_from_loader(loader.name, loader))
    loader.exec_module(module)
    module.COPIES = PLACE
    return module


@functools.cache
def faults():
    """All faults by name."""
    read = [fault for path in sorted((support.MODEL_SOURCES / "faults").glob("*.txt")) for fault in one_fault().read_faults(path)]
    return {fault.name: fault for fault in read}


@functools.cache
def program(names):
    """A program that holds the copies of these faults: its first argument is a fault's name. Made again if it is stale."""
    built = PLACE / f"with-{names[0]}"
    if support.is_stale(built, SOURCES) or listed() != names:
        shutil.rmtree(PLACE, ignore_errors=True)
        PLACE.mkdir(parents=True)
        chosen = [faults()[name] for name in names]
        for fault in chosen:
            complaint = one_fault().copy_with_fault(fault)
            if complaint:
                raise AssertionError(f"fault {fault.name}: {complaint}")
        made, complaint = one_fault().compile_copies(chosen)
        if complaint:
            raise AssertionError(f"the copies do not compile: {complaint}")
        (PLACE / "names").write_text("\n".join(names), encoding="utf-8")
        return made
    return built


def listed():
    """The faults of the program that is there."""
    names = PLACE / "names"
    return tuple(names.read_text(encoding="utf-8").split("\n")) if names.exists() else ()
