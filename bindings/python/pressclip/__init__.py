"""Standing queries over articles, by the proved engine pressclip.

>>> from pressclip import Monitor, highlight
>>> article = {"id": "a1", "fields": {"text": "Tea prices rise"}}
>>> with Monitor(hits=True) as monitor:
...     monitor.register("tea-prices", "+tea pric*")
...     for found in monitor.match(article):
...         print(found.query, highlight(article, found, "[", "]"))
tea-prices {'text': '[Tea] [prices] rise'}

A `Monitor` may be used by many threads, whose matches go side by side, and a `Snapshot` is what stood in it at one
moment. Neither can be copied.
`explain`, `explain_line` and `word_spans` say how the engine reads a query, a line and a text, and need no monitor.
So does `near_holds`, which says whether two words, phrases or prefixes are near in an article.
`gather` puts together what several monitors found of one article, as where each has some of the queries.
Places in a `str` count its characters, as slices do, and those in a line its bytes.
`__version__` is that of the library.
"""

from __future__ import annotations

from ._calls import version
from ._explain import Clause, Explanation, Key, LineFault, Remark, Tree, explain, explain_line
from ._gather import gather, gather_by
from ._highlight import highlight
from ._matches import Found, Hit
from ._monitor import Listing, Monitor
from ._near import near_holds
from ._refusals import Closed, LimitError, NoMemory, QueryError, Refused
from ._snapshot import Snapshot
from ._words import Span, word_spans

__all__ = ["Clause", "Closed", "Explanation", "Found", "Hit", "Key", "LimitError", "LineFault", "Listing", "Monitor",
           "NoMemory", "QueryError", "Refused", "Remark", "Snapshot", "Span", "Tree", "explain", "explain_line",
           "gather", "gather_by", "highlight", "near_holds", "word_spans"]
__version__ = version()
