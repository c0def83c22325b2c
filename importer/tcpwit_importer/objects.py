"""Work that makes many objects."""
import functools
import gc


def without_collection(act):
    """A function that makes many objects, but no cycles of them: Python looks for none meanwhile."""
    @functools.wraps(act)
    def acting(*words, **named):
        gc.disable()
        try:
            return act(*words, **named)
        finally:
            gc.enable()
    return acting
