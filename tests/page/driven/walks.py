"""What is walked in browsers that are driven: by keys, on paper, by touch, and in forced colours."""

from page.driven import forced, keyboard, printed, touch
from page.driven.browsers import driven

WALKS = [({}, [keyboard]), ({}, [printed]), ({"fingers": True}, [touch]), ({"forced": True}, [forced])]


def found_by(part, browser):
    """What a part finds wrong, or why it does not end."""
    try:
        return part(browser)
    except (LookupError, OSError, RuntimeError) as error:
        return [str(error)]


def walked(program, kinds, walks):
    """The parts of some walks in one browser, each with what it finds wrong."""
    with driven(program, **kinds) as browser:
        return [(f"{name} in {program}", found_by(part, browser)) for walk in walks for name, part in walk.PARTS.items()]
