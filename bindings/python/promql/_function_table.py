"""The functions of the language, by their types. Made by bindings/schema/write_tables.py of targets/: do not edit."""

from __future__ import annotations

from typing import Tuple

from .forms import ValueType

ROWS: Tuple[Tuple[Tuple[ValueType, ...], int, ValueType, bool, str], ...] = (
    (("vector",), 0, "vector", False, (
        "abs absent acos acosh asin asinh atan atanh ceil cos cosh deg exp floor histogram_avg histogram_count histogram_stddev "
        "histogram_stdvar histogram_sum ln log10 log2 rad sgn sin sinh sort sort_desc sqrt tan tanh timestamp"
    )),
    (("matrix",), 0, "vector", False, (
        "absent_over_time avg_over_time changes count_over_time delta deriv idelta increase irate last_over_time max_over_time "
        "min_over_time present_over_time rate resets stddev_over_time stdvar_over_time sum_over_time"
    )),
    (("vector", "scalar", "scalar"), 0, "vector", False, "clamp"),
    (("vector", "scalar"), 0, "vector", False, "clamp_max clamp_min"),
    (("vector",), 1, "vector", False, "day_of_month day_of_week day_of_year days_in_month hour minute month year"),
    (("matrix", "scalar", "scalar"), 0, "vector", True, "double_exponential_smoothing"),
    ((), 0, "scalar", True, "end range start step"),
    (("matrix",), 0, "vector", True, "first_over_time mad_over_time ts_of_first_over_time ts_of_last_over_time ts_of_max_over_time ts_of_min_over_time"),
    (("scalar", "scalar", "vector"), 0, "vector", False, "histogram_fraction"),
    (("scalar", "vector"), 0, "vector", False, "histogram_quantile"),
    (("vector", "string", "scalar", "scalar"), 9, "vector", True, "histogram_quantiles"),
    (("vector", "vector"), 1, "vector", True, "info"),
    (("vector", "string", "string", "string"), -1, "vector", False, "label_join"),
    (("vector", "string", "string", "string", "string"), 0, "vector", False, "label_replace"),
    (("scalar", "scalar"), 0, "scalar", True, "max_of min_of"),
    ((), 0, "scalar", False, "pi time"),
    (("matrix", "scalar"), 0, "vector", False, "predict_linear"),
    (("scalar", "matrix"), 0, "vector", False, "quantile_over_time"),
    (("vector", "scalar"), 1, "vector", False, "round"),
    (("vector",), 0, "scalar", False, "scalar"),
    (("vector", "string"), -1, "vector", True, "sort_by_label sort_by_label_desc"),
    (("scalar",), 0, "vector", False, "vector"),
)
