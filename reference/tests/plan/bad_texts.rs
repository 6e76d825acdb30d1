//! Bad texts: where the error is, what was expected and what was found.

use leskofar_reference::plan::{read, Options, PlanError};

pub fn error(text: &str) -> PlanError {
    read(text.as_bytes(), Options::default()).expect_err(text)
}

/// Each line of a table has line and column, the first words of what was
/// expected and of what was found, and the bad text, with `\n`, `\r` and `\t`
/// for what they are in Rust.
fn assert_errors(table: &str) {
    for row in table.lines().filter(|row| !row.is_empty()) {
        let fields: Vec<&str> = row.split(" ~ ").collect();
        let [place, expected, found, text] = fields[..] else {
            panic!("no four fields: {row}");
        };
        let text = text.replace(r"\n", "\n").replace(r"\r", "\r");
        let text = text.replace(r"\t", "\t");
        let error = error(&text);
        let at = format!("{}:{}", error.at.line, error.at.column);
        assert_eq!(at, place, "{text}: {error}");
        assert!(error.expected.starts_with(expected), "{text}: {error}");
        assert!(error.found.starts_with(found), "{text}: {error}");
    }
}

#[test]
fn tokens() {
    assert_errors(
        r#"
1:1 ~ a parenthesis, name, number or string ~ `#` ~ #
2:2 ~ a parenthesis ~ byte 0xC3 ~ \n\tä
2:2 ~ a parenthesis ~ `]` ~ ; ä\n ]
1:8 ~ a keyword's word ~ `)` ~ (type :)
1:12 ~ a letter but `\` or the closing `|` of the name at line 1, column 7 ~ the end of the text ~ (type |a b)
1:9 ~ a letter but `\` or the closing `|` ~ the end of the line ~ (type |a\nb|)
1:9 ~ a letter but `\` or the closing `|` ~ `\` ~ (type |a\b|)
1:12 ~ a letter or the closing `"` of the string at line 1, column 10 ~ the end of the text ~ (letters "a
1:14 ~ a letter or the closing `"` ~ the end of the text ~ (letters "a""
2:3 ~ a letter or the closing `"` of the string at line 2, column 1 ~ byte 0x09 ~ (letters\n"a\tb")
1:9 ~ a number, or a name that begins with no digit ~ `5a` ~ (term t 5a)
1:9 ~ the number written `7` ~ `007` ~ (term t 007)
1:9 ~ the number written `0` ~ `-0` ~ (term t -0)
1:9 ~ a number from -9223372036854775808 to 9223372036854775807 ~ `9223372036854775808` ~ (term t 9223372036854775808)
1:9 ~ a number from -9223372036854775808 to 9223372036854775807 ~ `-9223372036854775809` ~ (term t -9223372036854775809)
2:3 ~ a number, or a name ~ `1.5` ~ (term t\r\n  1.5)
"#,
    );
}

#[test]
fn items() {
    assert_errors(
        r#"
1:1 ~ an item's `(` ~ `type` ~ type
2:10 ~ an item's `(` ~ `)` ~ \n (type A))
1:2 ~ `type`, `constant`, `function` ~ `)` ~ ()
1:2 ~ `type`, `constant`, `function` ~ `sort` ~ (sort A)
2:1 ~ the type's name ~ the end of the text ~ (type\n
1:7 ~ the type's name ~ "A" ~ (type "A")
1:8 ~ `:name` or the `)` for the `(` at line 1, column 1 ~ the end of the text ~ (type A
1:9 ~ `:name` or the `)` ~ `0` ~ (type A 0)
1:9 ~ `:name` or the `)` ~ `:names` ~ (type A :names "B")
1:15 ~ the name as a string ~ `B` ~ (type A :name B)
1:19 ~ the `)` for the `(` ~ `:name` ~ (type A :name "B" :name "C")
1:12 ~ a type's name ~ `)` ~ (constant x)
1:13 ~ the input types in parentheses ~ `Int` ~ (function f Int Int)
1:14 ~ a type's name ~ `5` ~ (function f (5) Int)
1:17 ~ the `)` for the `(` at line 1, column 13 ~ the end ~ (function f (Int
1:20 ~ `:name` or `:explained-by` or the `)` ~ `:explains` ~ (function f () Int :explains (a))
1:34 ~ names in parentheses ~ `a` ~ (function f () Int :explained-by a)
1:8 ~ the axiom's name ~ `(` ~ (axiom (f 1))
1:15 ~ `:explains` or the `)` ~ `false` ~ (axiom a true false)
1:24 ~ the `)` for the `(` ~ `true` ~ (axiom a :explains (f) true)
1:11 ~ the pattern's terms in parentheses ~ `)` ~ (pattern p)
1:8 ~ a term ~ `)` ~ (term t)
1:11 ~ the `)` for the `(` ~ `2` ~ (term t 1 2)
1:9 ~ the name of the node above, or `root` ~ `(` ~ (node n (= 1 1))
1:13 ~ a term ~ `)` ~ (node n root)
1:26 ~ the trace as a string ~ `step` ~ (node n root true :trace step)
1:9 ~ the name of the node where it is asked ~ `(` ~ (goal g (= 1 1))
1:10 ~ the letters as a string ~ `abc` ~ (letters abc)
1:10 ~ a number from 0 to 4294967295 ~ `-1` ~ (lists 0 -1)
1:8 ~ a number from 0 to 4294967295 ~ `4294967296` ~ (lists 4294967296)
"#,
    );
}

#[test]
fn terms() {
    assert_errors(
        r#"
1:9 ~ a term ~ "a" ~ (term t "a")
1:9 ~ a term ~ `:a` ~ (term t :a)
1:9 ~ a term ~ `let` outside of its parentheses ~ (term t let)
1:10 ~ a function, an operator or one of ~ `)` ~ (term t ())
1:10 ~ a function, an operator or one of ~ `(` ~ (term t ((f) 1))
1:10 ~ a function, an operator or one of ~ `true` ~ (term t (true 1))
1:10 ~ a function, an operator or one of ~ `!` ~ (term t (! 1 :pattern ()))
1:13 ~ an argument ~ `)` ~ (term t (and))
2:3 ~ the `)` for the `(` at line 1, column 9 ~ the end of the text ~ (term t (and 1\n 2
1:18 ~ the literal as a string ~ `red` ~ (term t (literal red Int))
1:23 ~ the literal's type ~ `)` ~ (term t (literal "red"))
1:18 ~ the operator as a string ~ `xor` ~ (term t (builtin xor))
1:20 ~ a term ~ `)` ~ (term t (ite true 1))
1:23 ~ the `)` for the `(` at line 1, column 9 ~ `3` ~ (term t (ite true 1 2 3))
1:15 ~ a constant and its term in two parentheses ~ `v` ~ (term t (let (v 1) 2))
1:21 ~ the `)` for the `(` at line 1, column 14 ~ `(` ~ (term t (let ((v 1) (w 2)) 3))
1:17 ~ the bound constants in parentheses ~ `true` ~ (term t (forall true))
1:18 ~ a bound constant and its type in parentheses ~ `v` ~ (term t (forall (v) true))
1:20 ~ the constant's type ~ `)` ~ (term t (forall ((v)) true))
1:27 ~ `:pattern` ~ `)` ~ (term t (forall () (! true)))
1:28 ~ `:pattern` ~ `:named` ~ (term t (forall () (! true :named n)))
1:36 ~ a pattern's name, or its terms ~ `)` ~ (term t (forall () (! true :pattern)))
"#,
    );
}

#[test]
fn names() {
    assert_errors(
        r#"
2:7 ~ a new name ~ `A`, declared at line 1, column 7 ~ (type A)\n(type A)
2:7 ~ a new name ~ `A`, declared at line 1, column 7 ~ (type A)\n(type |A|)
1:7 ~ a new name ~ `Int`, a reserved word ~ (type Int)
2:11 ~ a new name ~ `x`, declared at line 1, column 11 ~ (constant x Int)\n(function x () Int)
1:7 ~ a new name ~ `x`, declared at line 2, column 11 ~ (term x 1)\n(constant x Int)
1:11 ~ a new name ~ `and`, a reserved word ~ (constant |and| Int)
1:11 ~ a new name ~ `%tag`, a reserved word ~ (constant %tag Int)
1:11 ~ a new name ~ `exit`, a reserved word ~ (constant exit Int)
1:11 ~ a new name ~ `as`, a reserved word ~ (function |as| () Int)
1:7 ~ a new name ~ `par`, a reserved word ~ (type par)
1:17 ~ a new name ~ `a`, declared at ~ (axiom a)(axiom a)
1:24 ~ a new name ~ `p`, declared at ~ (pattern p ())(pattern p ())
1:25 ~ a new name ~ `n`, declared at ~ (node n root true)(node n root true)
1:7 ~ a new name ~ `root`, a reserved word ~ (node root root true)
1:25 ~ a new name ~ `g`, declared at ~ (goal g root true)(goal g root true)
1:13 ~ a type ~ `Shade` ~ (constant x Shade)
1:18 ~ a type ~ `Shade` ~ (function f (Int Shade) Int)
1:16 ~ a type ~ `|a b|` ~ (function f () |a b|)
1:35 ~ an axiom ~ `a` ~ (function f () Int :explained-by (a))
1:26 ~ a function ~ `f` ~ (axiom a true :explains (f))
1:42 ~ a function ~ `c` ~ (constant c Int)(axiom a true :explains (c))
1:24 ~ a type ~ `Shade` ~ (term t (literal "red" Shade))
1:12 ~ a constant, function or term above ~ `x` ~ (term t (= x 1))
1:22 ~ a constant, function or term above ~ `|a:S|` ~ (type T)(term t (= 1 |a:S|))
1:33 ~ a function or an operator ~ `|a:T|` ~ (type T)(term u (= 1 2))(term t(|a:T| 1))
1:10 ~ a function or an operator ~ `=<` ~ (term t (=< 1 2))
1:26 ~ a function or an operator ~ `x` ~ (constant x Int)(term t (x 1))
1:16 ~ a constant ~ `v` ~ (term t (let ((v 1)) 2))
1:19 ~ a constant ~ `v` ~ (term t (forall ((v Int)) 2))
1:37 ~ `Int`, the type of `v` ~ `Bool` ~ (constant v Int)(term t (forall ((v Bool)) 2))
1:37 ~ a type ~ `S` ~ (constant v Int)(term t (forall ((v S)) 2))
1:37 ~ a pattern ~ `p` ~ (term t (forall () (! true :pattern p)))
1:9 ~ a node above ~ `m` ~ (node n m true)(node m root true)
1:9 ~ a node above ~ `n` ~ (node n n true)
1:9 ~ a node above ~ `n` ~ (goal g n true)(node n root true)
"#,
    );
}

/// What would be refusal 5.
#[test]
fn references() {
    assert_errors(
        r#"
1:12 ~ a constant, function or term above ~ `u` ~ (term t (+ u 1))(term u 1)
1:12 ~ a constant, function or term above ~ `t` ~ (term t (+ t 1))
2:9 ~ a term of its own ~ the name `t` of one ~ (term t 1)\n(term u t)
2:14 ~ a term that nothing else refers to ~ one that is referred to at line 2, column 12 ~ (term t 1)\n(term u (+ t t))
3:14 ~ a term that nothing else refers to ~ one that is referred to at line 2, column 14 ~ (term t true)\n(node n root t)\n(node m root t)
3:14 ~ a term that nothing else refers to ~ one that is referred to at line 2, column 10 ~ (term t true)\n(axiom a t)\n(term u (not t))
3:34 ~ a pattern whose terms nothing else refers to ~ one that is referred to at line 2, column 14 ~ (term t 1)(pattern p (t))\n(term u (not t))\n(term q (forall () (! 1 :pattern p)))
2:45 ~ a pattern whose terms nothing else refers to ~ one that is referred to at line 2, column 34 ~ (pattern p (1))\n(term q (forall () (! 1 :pattern p :pattern p)))
2:13 ~ a term above the quantifier that lists it at line 1, column 34 ~ one below ~ (term q (forall () (! 1 :pattern p)))\n(pattern p (1))
"#,
    );
}
