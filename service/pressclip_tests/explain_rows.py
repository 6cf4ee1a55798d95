"""Rows of what `pressclip-explain` tells, worked out by hand from the syntax and the tables of docs/PROTOCOL.md."""

from __future__ import annotations

QUERY, ARTICLE = '{"id":"q1","query":"tea"}', '{"id":"a1","fields":{}}'


def listing(front: str, item: str, count: int, back: str) -> str:
    """A line that lists something so many times."""
    return front + ",".join([item] * count) + back


def with_fields(names: list[str]) -> str:
    """A match of one article with fields of these names."""
    fields = ",".join(f'"{name}":"tea"' for name in names)
    return '{"op":"match","articles":[{"id":"a1","fields":{' + fields + "}}]}"


def registering(count: int) -> str:
    """A register of so many queries."""
    return listing('{"op":"register","queries":[', QUERY, count, "]}")


def matching(count: int) -> str:
    """A match of so many articles."""
    return listing('{"op":"match","articles":[', ARTICLE, count, "]}")


def showing(length: int) -> str:
    """A show of an id with so many bytes."""
    return '{"op":"show","id":"' + "i" * length + '"}'


# Queries: the text, its spelling, how many nodes it has, its weight, and of `all` (tried on each article), `never` and
# `always` those that are so.
QUERIES: tuple[tuple[str, str, int, int, set[str]], ...] = (
    ('+tea +(pric* OR "green tea")', '+text:tea +(text:pric* text:"green tea")', 5, 4, set()),
    ("(tea OR Milk) AND NOT price", "+(text:tea text:milk) -text:price", 5, 3, set()),
    ("C\\+\\+", "text:c", 2, 1, set()),
    ("\\OR:tea", "\\OR:tea", 2, 3, set()),
    ('title:{* TO "m"}', 'title:[* TO "m"}', 2, 0, {"all"}),
    ("[a TO b]", 'text:["a" TO "b"]', 2, 0, {"all"}),
    ("*:* -tea", "*:* -text:tea", 3, 0, {"all"}),
    ("#*", "text:#*", 2, 1, set()),
    ("#é*", "text:#é*", 2, 2, set()),
    # never
    ("-spam", "-text:spam", 2, 0, {"all", "never"}),
    ("a AND (NOT b)", "+text:a +(-text:b)", 4, 1, {"never"}),
    ("#MeToo*", "text:#metoo*", 2, 6, {"never"}),
    ("\\+1*", "text:\\+1*", 2, 2, {"never"}),
    ("e-mobil*", "text:e\\-mobil*", 2, 7, {"never"}),
    ("[b TO a]", 'text:["b" TO "a"]', 2, 0, {"all", "never"}),
    ("{a TO a]", 'text:{"a" TO "a"]', 2, 0, {"all", "never"}),
    ("9a:tea", "9a:tea", 2, 3, {"never"}),
    ("tea -*:*", "text:tea -*:*", 3, 3, {"never"}),
    # always
    ("*:*", "*:*", 2, 0, {"all", "always"}),
    ("*:* -[b TO a]", '*:* -text:["b" TO "a"]', 3, 0, {"all", "always"}),
)

# Texts that are no queries: the text, its fault, and the byte at which that is.
FAULTS: tuple[tuple[str, str, int], ...] = (
    ('tea "milk', "Lexical", 4),
    # a form that is left out
    ("te*m", "LeftOut", 0),
    ("te*a tea", "LeftOut", 0),
    ("tea ~ x", "LeftOut", 4),
    ("tea * ~", "LeftOut", 4),
    ("*:* OR *:~", "LeftOut", 7),
    ("café AND ~", "LeftOut", 10),
    # a lexeme that no clauses have there
    ("tea)", "Structure", 3),
    ("a:b:c", "Structure", 3),
    ("AND tea", "Structure", 0),
    ("tea OR OR milk", "Structure", 7),
    ("+-tea", "Structure", 1),
    ("title:*:*", "Structure", 6),
    ("*:*:*", "Structure", 3),
    ("\u3000)", "Structure", 3),
    ("(tea OR) milk", "Structure", 7),
    # something is missing at the end
    ("", "Structure", 0),
    ("tea AND", "Structure", 7),
    ("(tea ", "Structure", 5),
    ("tea title:", "Structure", 10),
    # an item with no words
    ('"..."', "NoWords", 0),
    ('tea "!!!"', "NoWords", 4),
    ('...:tea (green "!") ""', "NoWords", 15),
    ("tea % #", "NoWords", 4),
    # the bounds of a text and of a query
    ("a" * 65_537, "TooLong", 65_536),
    ("(" * 65 + "tea" + ")" * 65, "TooBig", 133),
)

# Texts, and the first byte and the end of each of their words.
WORDS: tuple[tuple[str, list[tuple[int, int]]], ...] = (
    ("Straße: e-mail, tea", [(0, 7), (9, 10), (11, 15), (17, 20)]),
    ("can't 3.14 tea_pot", [(0, 5), (6, 10), (11, 18)]),
    ("!", []),
    ("", []),
)

# Texts, and the places and rules of their remarks that are no hints.
REMARKS: tuple[tuple[str, list[tuple[int, str]]], ...] = (
    ("(NOT tea) AND milk", [(0, "only_excludes")]),
    ("tea (-a !b)", [(4, "only_excludes")]),
    ("-spam", [(0, "only_excludes")]),
    ("Siemens Energy", [(8, "bare_blank")]),
    ("tea AND green leaf", [(14, "bare_blank")]),
    ("tea milk OR coffee", [(4, "bare_blank")]),
    ("title:green leaf", [(12, "field_of_one_clause")]),
    ("a AND b OR c", [(2, "and_beside_or")]),
    ("x OR (a OR (b AND d) AND c)", [(8, "and_beside_or")]),
    ("tea OR NOT milk", [(7, "or_not")]),
    ("Yahoo! news", [(5, "sign_behind_word")]),
    ("tea - milk", [(4, "loose_sign")]),
    ("tea And milk", [(4, "lower_case_operator")]),
    ("tea NEAR milk", [(4, "foreign_operator"), (4, "capitals")]),
    ("atleast2(tea milk)", [(0, "foreign_operator"), (8, "word_before_parenthesis")]),
    ("Title:tea", [(0, "field_case")]),
    ("tea, milk", [(0, "comma_list")]),
    ("“tea”", [(0, "other_quote")]),
    ("'tea milk", [(0, "other_quote")]),
    ("C++ .net", [(0, "dropped_sign"), (4, "dropped_sign")]),
    ("e-mobility", [(0, "sign_makes_phrase")]),
    ("e-mobil*", [(0, "sign_in_prefix")]),
    ('"tea*"', [(0, "wildcard_in_quotes"), (0, "sign_in_quotes")]),
    ('"tea OR milk"', [(0, "operator_in_quotes"), (0, "capitals")]),
    ('"10%"', [(0, "sign_in_quotes")]),
    ("tea WHO", [(4, "capitals")]),
    ("l’Oréal d'Orsay", [(0, "apostrophe"), (11, "apostrophe")]),
    ("[10 TO 200]", [(0, "range_of_digits")]),
    # none
    ("tea AND (coffee OR milk)", []),
    ("(a AND b) OR c", []),
    ("+tea -spam", []),
    ("title:tea text:milk *:* -spam", []),
    ('"green tea" 日本 U.S.', []),
    ("title:near*", []),
    ('C++ "tea', []),
    ("", []),
)

# Texts, and the places and rules of all their remarks.
HINTS: tuple[tuple[str, list[tuple[int, str]]], ...] = (
    ("tea milk", [(0, "text_field_only"), (0, "exact_words"), (4, "blank_is_or")]),
    ("headline:tea*", [(0, "other_field")]),
    ("title:tea", [(0, "exact_words")]),
    ("tea*", [(0, "text_field_only")]),
    ("title:tea*", []),
)

# Lines of the protocol: the line, the word of its refusal, the byte or the member that is wrong, and what is said.
LINES: tuple[tuple[str, str, int | str, str], ...] = (
    # json
    ('{"op":"count"', "json", 13, "no JSON value goes on like this"),
    ('{"op":"count",}', "json", 14, "no JSON value goes on like this"),
    ('{"op" "count"}', "json", 6, "no JSON value goes on like this"),
    ('{"op":}', "json", 6, "no JSON value goes on like this"),
    ('{"op":"count"} x', "json", 15, "no JSON value goes on like this"),
    ("{7:1}", "json", 1, "no JSON value goes on like this"),
    ('{"op":"a\\qb"}', "json", 9, "no JSON value goes on like this"),
    ('{"op":01}', "json", 7, "no JSON value goes on like this"),
    ('{"op":1e999}', "json", 10, "no JSON value goes on like this"),
    ("op", "json", 0, "no JSON value goes on like this"),
    # shape: the line's object and its operation
    ("7", "shape", "", "this is no object"),
    ("[]", "shape", "", "this is no object"),
    ("{}", "shape", "op", "this member is missing"),
    ('{"queries":[]}', "shape", "op", "this member is missing"),
    ('{"op":7}', "shape", "op", "this is no string"),
    ('{"op":"Count"}', "shape", "op", "there is no such operation"),
    # shape: the members beside it
    ('{"op":"clear","id":"q1"}', "shape", "id", "no such member may stand here"),
    ('{"op":"register"}', "shape", "queries", "this member is missing"),
    ('{"op":"register","queries":{}}', "shape", "queries", "this is no list"),
    ('{"op":"register","queries":[],"ids":[]}', "shape", "ids", "no such member may stand here"),
    ('{"op":"delete","ids":"q1"}', "shape", "ids", "this is no list"),
    ('{"op":"delete","ids":["q1",2]}', "shape", "ids[1]", "this is no string"),
    ('{"op":"show"}', "shape", "id", "this member is missing"),
    ('{"op":"show","id":null}', "shape", "id", "this is no string"),
    ('{"op":"match","articles":"a1"}', "shape", "articles", "this is no list"),
    # shape: what is listed
    ('{"op":"register","queries":[{"id":"q1","query":"tea"},7]}', "shape", "queries[1]", "this is no object"),
    ('{"op":"register","queries":[{"id":"q1"}]}', "shape", "queries[0].query", "this member is missing"),
    ('{"op":"register","queries":[{"id":"q1","query":"tea","text":"tea"}]}',
     "shape", "queries[0].text", "no such member may stand here"),
    ('{"op":"register","queries":[{"id":"q1","query":"tea","listener":7}]}',
     "shape", "queries[0].listener", "this is no string"),
    ('{"op":"match","articles":[{"id":"a1"}]}', "shape", "articles[0].fields", "this member is missing"),
    ('{"op":"match","articles":[{"id":"a1","fields":[]}]}', "shape", "articles[0].fields", "this is no object"),
    ('{"op":"match","articles":[{"id":"a1","fields":{}},{"id":"a2","fields":{}},{"id":"a3","fields":{"lang":7}}]}',
     "shape", "articles[2].fields.lang", "this is no string"),
    ('{"op":"match","articles":[{"id":1,"fields":{}}]}', "shape", "articles[0].id", "this is no string"),
    # the shape of all is judged before any limit, and of two causes the first is told
    ('{"op":"delete","ids":["",2]}', "shape", "ids[1]", "this is no string"),
    ('{"op":"delete","ids":[3,2]}', "shape", "ids[0]", "this is no string"),
    # limit
    ('{"op":"show","id":""}', "limit", "id", "an id has at least 1 byte"),
    ('{"op":"delete","ids":["q1",""]}', "limit", "ids[1]", "an id has at least 1 byte"),
    ('{"op":"register","queries":[{"id":"","query":"("}]}', "limit", "queries[0].id", "an id has at least 1 byte"),
    ('{"op":"match","articles":[{"id":"","fields":{}}]}', "limit", "articles[0].id", "an id has at least 1 byte"),
    ('{"op":"match","articles":[{"id":"a1","fields":{"":"tea"}}]}',
     "limit", "articles[0].fields.", "a field's name has at least 1 byte"),
    ('{"op":"match","articles":[{"id":"a1","fields":{"a-b":"tea"}}]}',
     "limit", "articles[0].fields.a-b", "a field's name has only ASCII letters, digits and `_`"),
    ('{"op":"match","articles":[{"id":"a1","fields":{"1st":"tea"}}]}',
     "limit", "articles[0].fields.1st", "a field's name begins with no digit"),
    (registering(1_025), "limit", "queries", "a line lists at most 1,024 queries"),
    (listing('{"op":"delete","ids":[', '""', 1_025, "]}"), "limit", "ids", "a line lists at most 1,024 ids"),
    (matching(257), "limit", "articles", "a line lists at most 256 articles"),
    (with_fields([f"f{place}" for place in range(17)]),
     "limit", "articles[0].fields", "an article has at most 16 fields"),
    (with_fields(["n" * 65]),
     "limit", "articles[0].fields." + "n" * 65, "a field's name has at most 64 bytes"),
    (showing(257), "limit", "id", "an id has at most 256 bytes"),
)

# Lines that are refused for nothing that stands in them.
TAKEN: tuple[str, ...] = (
    '{"op":"count","op":"count"}',
    '{"op":"match","articles":[{"id":"a1","fields":{"_9":"tea"}}]}',
    " \t",
    "",
    '{"op":"purge"}',
    registering(1_024),
    matching(256),
    with_fields([f"f{place}" for place in range(16)]),
    with_fields(["n" * 64]),
    showing(256),
)
