"""The page's server, as tests run it beside them."""

import threading
from contextlib import contextmanager

from promql import page


@contextmanager
def served(handler=page.Handler):
    """Serves the page on a free port until the end of the block."""
    server = page.Server((page.ADDRESS, 0), handler)
    thread = threading.Thread(target=server.serve_forever, kwargs={"poll_interval": 0.02})
    thread.start()
    try:
        yield server
    finally:
        server.shutdown()
        thread.join()
        server.server_close()


def enter(test_class, context):
    """Enters a context for all tests of a class."""
    value = context.__enter__()
    test_class.addClassCleanup(context.__exit__, None, None, None)
    return value


def url_of(server):
    return f"http://{page.ADDRESS}:{server.server_port}/"
