//! Forms as the library writes them are read at once. A space before one makes that it is read as any other form is, with the same outcome.

use promql_proved::*;

const QUERIES: [&str; 28] = [
    "1",
    "-Inf",
    r#""a\"\\b\n\x00\x1f\x7f""#,
    r#""é🦀""#,
    "-(foo)",
    "{a='1', b!~'2'}",
    "{'a b'='c', d!='\"', e=~'f'}",
    "time()",
    "foo{a='1' or b=~'2', c!='3'} offset -5m @ end()",
    "foo[5m] anchored @ -1.5",
    "foo[5m] smoothed @ start()",
    "up[1h:]",
    "up[1h:5m] @ start() offset 1m",
    "sum without (a) (up)",
    "topk by (a, b) (5, up)",
    "round(a, 2)",
    "a == bool 1",
    "a and on (b) c",
    "a / ignoring (b) group_left (c) d",
    "a + on (b) group_right fill_left (1) d",
    "a * on () fill (2) b",
    "label_join(a, 'b', 'c', 'd')",
    "a @ 1e15",
    "a offset 1000y",
    "count_values('a', b)",
    "(((a)))",
    "{__name__='a' or __name__='b'}",
    "sum by (job) (rate(foo{a='1'}[5m])) / on (job) group_left () (bar - 1)",
];

const PIECES: [&str; 26] = [
    "\"",
    "\\",
    "{",
    "}",
    "[",
    "]",
    ",",
    ":",
    "null",
    "true",
    "\\u0000",
    "\\u00e9",
    "\\ud800",
    "-",
    "0",
    "01",
    "-0",
    "18446744073709551615",
    "18446744073709551616",
    "é",
    " ",
    "\\n",
    "",
    "startOrEnd",
    "1e3",
    "\"a\"",
];

/// Numbers that look random, always the same ones.
struct Generator(u64);

impl Generator {
    fn below(&mut self, bound: usize) -> usize {
        self.0 = self.0.wrapping_mul(6364136223846793005).wrapping_add(1442695040888963407);
        (self.0 >> 33) as usize % bound
    }
}

fn forms() -> Vec<String> {
    QUERIES.iter().map(|query| json(query).unwrap_or_else(|error| panic!("{query}: {error}"))).collect()
}

fn read_otherwise(form: &str) -> Result<Expr, FormError> {
    Expr::from_json(&format!(" {form}"))
}

#[test]
fn forms_of_queries_are_read_alike_and_written_again() {
    for form in forms() {
        let expr = Expr::from_json(&form).unwrap();
        assert_eq!(Ok(&expr), read_otherwise(&form).as_ref());
        assert_eq!(expr.to_json(), form);
    }
}

#[test]
fn forms_that_are_changed_have_the_same_outcome() {
    let (forms, mut generator) = (forms(), Generator(80));
    let mut trees = 0;
    for _ in 0..2_000 {
        let mut form = forms[generator.below(forms.len())].clone();
        for _ in 0..1 + generator.below(2) {
            let start = generator.below(form.len());
            let end = (start + generator.below(3)).min(form.len());
            if form.is_char_boundary(start) && form.is_char_boundary(end) {
                form.replace_range(start..end, PIECES[generator.below(PIECES.len())]);
            }
        }
        let outcome = Expr::from_json(&form);
        assert_eq!(outcome, read_otherwise(&form), "{form}");
        trees += usize::from(outcome.is_ok());
    }
    assert!(trees > 50, "{trees}");
}

#[test]
fn forms_that_are_cut_are_none() {
    for form in forms() {
        for end in (0..form.len()).filter(|end| form.is_char_boundary(*end)) {
            assert_eq!(Expr::from_json(&form[..end]).map_err(|error| error.message), Err(String::from("not JSON")), "{}", &form[..end]);
        }
    }
}

#[test]
fn numbers_at_their_bounds() {
    let form = |offset: &str, timestamp: &str| {
        format!(r#"{{"matchers":[],"name":"a","offset":{offset},"startOrEnd":null,"timestamp":{timestamp},"type":"vectorSelector"}}"#)
    };
    for number in ["0", "-1", "-9223372036854775808", "9223372036854775807"] {
        assert_eq!(Expr::from_json(&form(number, number)).unwrap().to_json(), form(number, number));
    }
    assert_eq!(Expr::from_json(&form("18446744073709551615", "0")).unwrap().to_json(), form("18446744073709551615", "0"));
    for number in ["-9223372036854775809", "18446744073709551616", "1.5", "1e3", "true", "\"1\""] {
        assert_eq!(Expr::from_json(&form(number, "0")).unwrap_err().path, "$.offset", "{number}");
        assert_eq!(Expr::from_json(&form("0", number)).unwrap_err().path, "$.timestamp", "{number}");
    }
}

#[test]
fn each_function_is_found() {
    let names = ["abs", "absent", "ceil", "day_of_month", "histogram_quantile", "info", "label_join", "rate", "round", "time", "year"];
    assert!(names.iter().all(|name| get_function(name).map_or(false, |it| it.name == *name)));
    assert!(["", "a", "rates", "zzz", "Rate"].iter().all(|name| get_function(name).is_none()));
}
