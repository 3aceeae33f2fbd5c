"""The functions of the language with what they do, in a sentence; docs/reference/functions.md has the table of their types."""

from __future__ import annotations

from typing import Dict, List, NamedTuple, Tuple


class Parameter(NamedTuple):
    name: str
    type: str
    # Whether it may be missing, and whether it may be there several times.
    is_optional: bool
    is_repeated: bool

    @property
    def label(self) -> str:
        text = f"{self.name}: {self.type}" + ", .." * self.is_repeated
        return f"[{text}]" if self.is_optional else text


class Function(NamedTuple):
    name: str
    parameters: Tuple[Parameter, ...]
    value: str
    is_experimental: bool
    sentence: str

    @property
    def signature(self) -> str:
        return f"{self.name}({', '.join(it.label for it in self.parameters)}): {self.value}"


# The name, the parameters, the value, and what it does. A parameter with `?` may be missing, one with `*` may be there any number of
# times; a name with `!` is experimental.
_TABLE = """
abs | v: vector | vector | The absolute value of each sample.
absent | v: vector | vector | A series of the value 1 where the vector is empty, and nothing where it is not.
absent_over_time | range: matrix | vector | A series of the value 1 where the range has no sample, and nothing where it has one.
acos | v: vector | vector | The arc cosine of each sample, in radians.
acosh | v: vector | vector | The inverse hyperbolic cosine of each sample.
asin | v: vector | vector | The arc sine of each sample, in radians.
asinh | v: vector | vector | The inverse hyperbolic sine of each sample.
atan | v: vector | vector | The arc tangent of each sample, in radians.
atanh | v: vector | vector | The inverse hyperbolic tangent of each sample.
avg_over_time | range: matrix | vector | The mean of the samples of each series in the range.
ceil | v: vector | vector | Each sample, rounded up to a whole number.
changes | range: matrix | vector | How often the value of each series changed in the range.
clamp | v: vector, min: scalar, max: scalar | vector | Each sample, kept between two bounds.
clamp_max | v: vector, max: scalar | vector | Each sample, but at most this bound.
clamp_min | v: vector, min: scalar | vector | Each sample, but at least this bound.
cos | v: vector | vector | The cosine of each sample, which is in radians.
cosh | v: vector | vector | The hyperbolic cosine of each sample.
count_over_time | range: matrix | vector | How many samples each series has in the range.
day_of_month | times: vector? | vector | The day of the month, from 1, of each time in UTC; of now without an argument.
day_of_week | times: vector? | vector | The day of the week, 0 for Sunday, of each time in UTC; of now without an argument.
day_of_year | times: vector? | vector | The day of the year, from 1, of each time in UTC; of now without an argument.
days_in_month | times: vector? | vector | How many days the month of each time has, in UTC; of now without an argument.
deg | v: vector | vector | Radians as degrees.
delta | range: matrix | vector | The difference between the last and the first value of a gauge, drawn out to the whole range.
deriv | range: matrix | vector | The slope of a gauge by the second, by a line of least squares.
double_exponential_smoothing! | range: matrix, smoothing: scalar, trend: scalar | vector | Each series, smoothed with its trend.
end! | | scalar | The end of the range that the query is evaluated over, in seconds.
exp | v: vector | vector | The exponential function of each sample.
first_over_time! | range: matrix | vector | The oldest sample of each series in the range.
floor | v: vector | vector | Each sample, rounded down to a whole number.
histogram_avg | v: vector | vector | The mean of what each native histogram observed.
histogram_count | v: vector | vector | How many observations each native histogram has.
histogram_fraction | lower: scalar, upper: scalar, v: vector | vector | Which part of the observations of a histogram is between two bounds.
histogram_quantile | quantile: scalar, buckets: vector | vector | A quantile of the observations of each histogram, from its buckets.
histogram_quantiles! | buckets: vector, label: string, quantile: scalar, quantile: scalar+9 | vector | Quantiles of each histogram.
histogram_stddev | v: vector | vector | The standard deviation of what each native histogram observed.
histogram_stdvar | v: vector | vector | The variance of what each native histogram observed.
histogram_sum | v: vector | vector | The sum of what each native histogram observed.
hour | times: vector? | vector | The hour of the day, from 0, of each time in UTC; of now without an argument.
idelta | range: matrix | vector | The difference between the last two samples of a gauge.
increase | range: matrix | vector | How much a counter grew in the range, with its resets made good, drawn out to the whole range.
info! | v: vector, selector: vector? | vector | The vector with labels of the info series that belong to it.
irate | range: matrix | vector | How fast a counter grew by the second between its last two samples.
label_join | v: vector, target: string, separator: string, source: string* | vector | A label that is other labels, joined by a separator.
label_replace | v: vector, target: string, replacement: string, source: string, pattern: string | vector | A label made of another.
last_over_time | range: matrix | vector | The newest sample of each series in the range.
ln | v: vector | vector | The natural logarithm of each sample.
log10 | v: vector | vector | The decimal logarithm of each sample.
log2 | v: vector | vector | The binary logarithm of each sample.
mad_over_time! | range: matrix | vector | The median of the distances of the samples from their median.
max_of! | a: scalar, b: scalar | scalar | The greater of two scalars.
max_over_time | range: matrix | vector | The greatest sample of each series in the range.
min_of! | a: scalar, b: scalar | scalar | The lesser of two scalars.
min_over_time | range: matrix | vector | The least sample of each series in the range.
minute | times: vector? | vector | The minute of the hour, from 0, of each time in UTC; of now without an argument.
month | times: vector? | vector | The month of the year, from 1, of each time in UTC; of now without an argument.
pi | | scalar | The number pi.
predict_linear | range: matrix, seconds: scalar | vector | The value of a gauge so many seconds from now, by a line of least squares.
present_over_time | range: matrix | vector | The value 1 for each series that has a sample in the range.
quantile_over_time | quantile: scalar, range: matrix | vector | A quantile of the samples of each series in the range.
rad | v: vector | vector | Degrees as radians.
range! | | scalar | How long the range is that the query is evaluated over, in seconds.
rate | range: matrix | vector | How fast a counter grew by the second, on average over the range, with its resets made good.
resets | range: matrix | vector | How often a counter fell in the range.
round | v: vector, nearest: scalar? | vector | Each sample, rounded to a multiple of a number, or to a whole one.
scalar | v: vector | scalar | The sample of a vector of one series; NaN where it has none or more.
sgn | v: vector | vector | The sign of each sample: 1, -1 or 0.
sin | v: vector | vector | The sine of each sample, which is in radians.
sinh | v: vector | vector | The hyperbolic sine of each sample.
sort | v: vector | vector | The series by their values, the least first.
sort_by_label! | v: vector, label: string* | vector | The series by their values of labels, in natural order.
sort_by_label_desc! | v: vector, label: string* | vector | The series by their values of labels, the last of the natural order first.
sort_desc | v: vector | vector | The series by their values, the greatest first.
sqrt | v: vector | vector | The square root of each sample.
start! | | scalar | The start of the range that the query is evaluated over, in seconds.
stddev_over_time | range: matrix | vector | The standard deviation of the samples of each series in the range.
stdvar_over_time | range: matrix | vector | The variance of the samples of each series in the range.
step! | | scalar | The step of the range that the query is evaluated over, in seconds.
sum_over_time | range: matrix | vector | The sum of the samples of each series in the range.
tan | v: vector | vector | The tangent of each sample, which is in radians.
tanh | v: vector | vector | The hyperbolic tangent of each sample.
time | | scalar | The time that the query is evaluated at, in seconds since 1970.
timestamp | v: vector | vector | The time of each sample, in seconds since 1970.
ts_of_first_over_time! | range: matrix | vector | The time of the oldest sample of each series in the range.
ts_of_last_over_time! | range: matrix | vector | The time of the newest sample of each series in the range.
ts_of_max_over_time! | range: matrix | vector | The time of the last of the greatest samples of each series in the range.
ts_of_min_over_time! | range: matrix | vector | The time of the last of the least samples of each series in the range.
vector | number: scalar | vector | A vector of one series without labels, which has this value.
year | times: vector? | vector | The year of each time in UTC; of now without an argument.
"""

# The operators over series: their parameter, and what they do.
_AGGREGATIONS = """
avg | | The mean of the samples of each group.
bottomk | k: scalar | The series of each group with the k least samples.
count | | How many series each group has.
count_values | label: string | How many series of each group have the same value, which becomes a label.
group | | The value 1 for each group.
limit_ratio | ratio: scalar | About this part of the series of each group, always the same ones.
limitk | k: scalar | Some k series of each group.
max | | The greatest sample of each group.
min | | The least sample of each group.
quantile | quantile: scalar | A quantile of the samples of each group.
stddev | | The standard deviation of the samples of each group.
stdvar | | The variance of the samples of each group.
sum | | The sum of the samples of each group.
topk | k: scalar | The series of each group with the k greatest samples.
"""

_WORDS = """
and | The series of the left side which have one with the same labels on the right.
or | The series of the left side, and those of the right that have none with the same labels there.
unless | The series of the left side which have none with the same labels on the right.
atan2 | The angle of the point with these coordinates, in radians.
by | An aggregation keeps these labels, and makes a group of the series that have the same values of them.
without | An aggregation drops these labels, and makes a group of the series that are the same but for them.
on | Series of both sides belong together where they have the same values of these labels.
ignoring | Series of both sides belong together where they have the same labels but for these.
group_left | Many series of the left side belong to one of the right, whose labels named here are taken over.
group_right | Many series of the right side belong to one of the left, whose labels named here are taken over.
bool | A comparison gives 1 or 0, and leaves out no series.
offset | The samples of so much earlier, or later with a minus.
fill | What a side without a series has in its place.
fill_left | What the left side has where it has no series.
fill_right | What the right side has where it has no series.
smoothed | Values at the borders of the range are made of the samples around them.
anchored | The range begins with the last sample before it.
start | In `@ start()`: at the start of the range that the query is evaluated over.
end | In `@ end()`: at the end of the range that the query is evaluated over.
"""


def _rows(table: str) -> List[List[str]]:
    return [[cell.strip() for cell in line.split("|")] for line in table.strip().splitlines()]


def _parameters(text: str) -> Tuple[Parameter, ...]:
    found = []
    for part in filter(None, text.split(", ")):
        name, _, kind = part.partition(": ")
        found.append(Parameter(name, kind.rstrip("?*+9"), kind.endswith(("?", "*", "+9")), kind.endswith(("*", "+9"))))
    return tuple(found)


FUNCTIONS: Dict[str, Function] = {
    name.rstrip("!"): Function(name.rstrip("!"), _parameters(parameters), value, name.endswith("!"), sentence)
    for name, parameters, value, sentence in _rows(_TABLE)
}
AGGREGATIONS: Dict[str, Function] = {
    name: Function(name, (*_parameters(parameter), Parameter("v", "vector", False, False)), "vector", False, sentence)
    for name, parameter, sentence in _rows(_AGGREGATIONS)
}
WORDS: Dict[str, str] = {word: sentence for word, sentence in _rows(_WORDS)}
TYPES = {"vector": "instant vector", "matrix": "range vector", "scalar": "scalar", "string": "string"}
