"""Queries of each class that are other once printed, and queries beside them that are not."""

from __future__ import annotations

from typing import Dict, List

OTHER: Dict[str, str] = {
    "byte escape": r"""
        "\xc3\xa9"
        '\303\251'
        "\xff"
        "\200"
        texts{a="\xc3\xa9"}
        texts{a!="\xc3\xa9"}
        texts{a=~"\xc3\xa9"}
        texts{a!~"\303\251"}
        label_replace(foo, "x", "\xc3\xa9", "job", ".*")
        label_replace(texts, "x", "y", "a", "\xc3\xa9")
        label_join(foo, "x", "\xc3\xa9", "job", "a")
        absent(nope{a="\xc3\xa9"})
    """,
    "escape of U+FFFD": r"""
        "\ufffd"
        '\uFFFD'
        "\U0000fffd"
        texts{a="\ufffd"}
        texts{a!~"\ufffd"}
        label_replace(foo, "x", "\ufffd", "job", ".*")
    """,
    "plus in timestamp": """
        timestamp(+foo)
        timestamp((+foo))
        timestamp(+(foo))
        timestamp((+((foo))))
        timestamp(++foo)
        timestamp(+ + foo)
        timestamp(+foo offset 5m)
        timestamp(+foo @ 1700003001)
        timestamp(+foo @ end())
        timestamp(+(foo @ start() offset -5m))
        timestamp(+foo{job="api"})
        timestamp(+{__name__="foo"})
        1 + timestamp(+foo)
    """,
    "plus in absent": """
        absent(+nope{a="b"})
        absent((+nope{a="b"}))
        absent(+(nope{a="b"}))
        absent(++nope{a="b"})
        absent(+nope{a="b"} offset 5m)
        absent(+nope{a="b"} @ 1.5)
        absent(+{__name__="nope", a="b"})
        absent(+nope{a="b", a!="c"})
        absent(+nope{a!="c", a="b"})
        absent(+nope{a=~"b", a="b", c="d"})
    """,
    "order in absent": """
        absent(nope{a="c", a!~"b"})
        absent(nope{a="c", a!="b"})
        absent((nope{a="c", a!="b"}))
        absent(nope{a=~"c", a="c"})
        absent(nope{a="c", a!="b", job="api"})
        absent(nope{a!="d", a="c", a!="b"})
        absent(nope{a!="d", a=~"c", a="c"})
        absent(nope{a="c", a!="b"} offset 5m @ 100)
        absent({__name__="nope", a="c", a!="b"})
        absent_over_time(nope{a="c", a!~"b"}[5m])
        absent_over_time((nope{a="c", a!~"b"}[5m]))
        absent_over_time(nope{a=~"c", a="c"}[5m] offset 1m)
    """,
    "fraction after @": """
        last_over_time(vector(time())[10ms:1ms] @ 4.0005)
        last_over_time(vector(time())[10ms:1ms] @ -4.0005)
        last_over_time(vector(time())[10ms:1ms] @ 1.00049999999999999999)
        last_over_time(vector(time())[10ms:1ms] @ 40005e-4)
    """,
    "negative zero": """
        -0
        -0.0
        -0x0
        -00
        -.0
        +-0
        -+0
        - + - -0
        (-0)
        -(-0)
        2 * -0
        -0 * 2
        1 / -0
        1 / (-0)
        -0 % 5
        (-0) ^ 3
        (-0) ^ -1
        values + -0
        values - -0
        -0 - values
        values * -0
        values / -0
        -0 % values
        values atan2 -0
        -0 atan2 values
        vector(-0)
        scalar(vector(-0))
        vector(-0) == 0
        vector(-0) or foo
        sum(vector(-0))
        sgn(vector(-0))
        clamp(values, -0, 5)
        clamp_min(values, -0)
        clamp_max(values, -0)
        predict_linear(values[5m], -0)
        count_values("x", vector(-0))
        last_over_time(vector(-0)[5m:1m])
    """,
}

ALIKE = r"""
    "\x41\101\u00e9\ufffe"
    `\xc3\xa9`
    `\ufffd`
    timestamp(foo)
    timestamp((foo))
    timestamp(+foo + 1)
    timestamp(-foo)
    timestamp(-+foo)
    timestamp(+-foo)
    timestamp(+sum(foo))
    timestamp(sum(+foo))
    timestamp(+timestamp(foo))
    timestamp(+foo or foo)
    timestamp(+vector(1))
    absent(+nope)
    absent(+nope{a=~"b"})
    absent(+nope{a!="b"})
    absent(+nope{a=""})
    absent(+nope{a="b", a="b"})
    absent(+nope{a="b", a=~"b"})
    absent(+nope{a=~"b", a="b"})
    absent(+{__name__="nope"})
    absent(-nope{a="b"})
    absent(+-nope{a="b"})
    absent(+nope{a="b"} or nope)
    absent(+nope{a="b"} or vector(1))
    absent(sum(+nope{a="b"}))
    absent((nope{a="b"}))
    absent_over_time((+nope{a="b"})[5m:1m])
    absent(nope{a!~"b", a="c"})
    absent(nope{a="c", a=~"c"})
    absent(nope{a="c", a="c"})
    absent(nope{a="c", a!="b", a="c"})
    absent(nope{a="", a!="b"})
    absent(nope{a="c", b!="d"})
    absent(-nope{a="c", a!="b"})
    absent(nope{a="c", a!="b"} + 1)
    absent(sum(nope{a="c", a!="b"}))
    absent_over_time(nope{a="c", a!="b"}[5m:1m])
    sum(nope{a="c", a!="b"})
    last_over_time(vector(time())[10ms:1ms] @ 1.0005)
    last_over_time(vector(time())[10ms:1ms] @ 4.0004)
    last_over_time(vector(time())[10ms:1ms] @ 4.001)
    last_over_time(vector(time())[10ms:1ms] @ -0)
    foo @ -9223372036854775.808
    foo @ 9223372036854775.807
    foo @ start() offset -5m
    --0
    -(0)
    -0 ^ 2
    -0 ^ values
    -1e-324
    1 - 0
    values - 0
    1 / -(0)
"""

# Beside numbers of the class `negative zero` that change nothing, for what is done with them.
ZEROS_ALIKE = """
    values > -0
    values == -0
    values <= bool -0
    -0 < values
    -0 == bool 0
    values % -0
    values ^ -0
    2 ^ -0
    (-0) ^ 2
    5 % -0
    -0 + 1
    topk(-0, values)
    quantile(-0, values)
    quantile_over_time(-0, values[5m])
    histogram_quantile(-0, baz_bucket)
    round(values, -0)
    abs(vector(-0))
    count(vector(-0))
    hour(vector(-0))
    vector(-0) == bool 0
    foo unless vector(-0)
"""


def lines_of(text: str) -> List[str]:
    return [line.strip() for line in text.splitlines() if line.strip()]
