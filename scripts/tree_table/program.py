"""A program that reads a tree and prints it as JSON, with what it says of each node in a member `~`."""

from schema import key

HEAD = '''//! Reads a tree and prints it as JSON again.
#![tactic(auto)]

use std::alloc::AllocError;
use std::io;
use std::io::{Read, Write};
use swc_ecma_codegen_common::{AssignOp, BinaryOp, BytePos, Decimal, Span, UnaryOp, UpdateOp};
use swc_ecma_codegen_json::program_from_slice;
use swc_ecma_codegen_spans::Spanned;
use swc_ecma_codegen_tree::{%s};
use swc_ecma_codegen_settings::util::{EndsWithAlphaNum, StartsWithAlphaNum};

type Done = Result<(), AllocError>;

trait Dump {
    fn dump(&self, out: &mut String) -> Done;
}

impl Dump for bool {
    fn dump(&self, out: &mut String) -> Done {
        out.push_str(if *self { "true" } else { "false" })
    }
}

impl Dump for String {
    fn dump(&self, out: &mut String) -> Done {
        out.push('"')?;
        for c in self.chars() {
            match c {
                '"' => out.push_str("\\\\\\"")?,
                '\\\\' => out.push_str("\\\\\\\\")?,
                '\\n' => out.push_str("\\\\n")?,
                '\\t' => out.push_str("\\\\t")?,
                '\\r' => out.push_str("\\\\r")?,
                '\\0' => out.push_str("\\\\u0000")?,
                c => out.push(c)?,
            }
        }
        out.push('"')
    }
}

fn number(n: u64, out: &mut String) -> Done {
    if n >= 10 {
        number(n / 10, out)?;
    }
    out.push((b'0' + (n %% 10) as u8) as char)
}

impl Dump for BytePos {
    fn dump(&self, out: &mut String) -> Done {
        number(self.0 as u64, out)
    }
}

impl Dump for Span {
    fn dump(&self, out: &mut String) -> Done {
        out.push_str("{\\"lo\\":")?;
        self.lo.dump(out)?;
        out.push_str(",\\"hi\\":")?;
        self.hi.dump(out)?;
        out.push('}')
    }
}

impl Dump for Decimal {
    fn dump(&self, out: &mut String) -> Done {
        out.push_str("{\\"negative\\":")?;
        self.negative().dump(out)?;
        out.push_str(",\\"digits\\":\\"")?;
        out.push_str(self.digits())?;
        out.push_str("\\",\\"exponent\\":")?;
        if self.exponent() < 0 {
            out.push('-')?;
        }
        number(self.exponent().unsigned_abs() as u64, out)?;
        out.push('}')
    }
}

impl<T: Dump> Dump for Option<T> {
    fn dump(&self, out: &mut String) -> Done {
        match self {
            Some(it) => it.dump(out),
            None => out.push_str("null"),
        }
    }
}

impl<T: Dump> Dump for Vec<T> {
    fn dump(&self, out: &mut String) -> Done {
        out.push('[')?;
        for i in 0..self.len() {
            if i > 0 {
                out.push(',')?;
            }
            self[i].dump(out)?;
        }
        out.push(']')
    }
}

fn facts(span: Option<Span>, starts: Option<bool>, ends: Option<bool>, out: &mut String) -> Done {
    out.push_str(",\\"~\\":[")?;
    span.dump(out)?;
    out.push(',')?;
    starts.dump(out)?;
    out.push(',')?;
    ends.dump(out)?;
    out.push_str("]}")
}

fn main(rt: HostRuntime) -> io::Result<()> {
    let mut bytes = Vec::new(rt.alloc());
    rt.stdin().read_to_end(&mut bytes)?;
    match program_from_slice(rt.alloc(), &bytes) {
        Ok(program) => {
            let mut out = String::new(rt.alloc());
            if program.dump(&mut out).is_ok() {
                println!(rt; "{out}")?;
            }
        }
        Err(error) => println!(rt; "{error}")?,
    }
    Ok(())
}
'''


def body(it, facts):
    """How a type is printed."""
    if it.is_struct:
        for at, (name, _) in enumerate(it.parts):
            yield f'        out.push_str("{"," if at else "{"}\\"{key(name)}\\":")?;\n        self.{name}.dump(out)?;\n'
        yield f"        {facts}\n"
        return
    yield "        match self {\n"
    for name, of in it.parts:
        if of == "":
            yield f'            {it.name}::{name} => out.push_str("\\"{name}\\""),\n'
        else:
            yield (f'            {it.name}::{name}(it) => {{\n                out.push_str("{{\\"{name}\\":")?;\n'
                   f"                it.dump(out)?;\n                {facts}\n            }}\n")
    yield "        }\n"


def impl(it, spanned, starts, ends):
    has = [f"Some(self.{call}())" if it.name in names else "None" for names, call in
           [(spanned, "span"), (starts, "starts_with_alpha_num"), (ends, "ends_with_alpha_num")]]
    of = it.name + "<AnyNode>" * it.is_generic
    text = "".join(body(it, f"facts({', '.join(has)}, out)"))
    return f"\nimpl Dump for {of} {{\n    fn dump(&self, out: &mut String) -> Done {{\n{text}    }}\n}}\n"


def link(sort):
    return (f"\nimpl Dump for {sort}Box<AnyNode> {{\n    #[cycle(all)]\n    fn dump(&self, out: &mut String) -> Done {{\n"
            f"        match self.get() {{\n            Some(it) => it.dump(out),\n"
            f'            None => out.push_str("\\"of another sort\\""),\n        }}\n    }}\n}}\n')


def source(types, sorts, spanned, starts, ends):
    operators = {"AssignOp", "BinaryOp", "UnaryOp", "UpdateOp"}
    names = sorted(set(types) - operators) + [f"{sort}Box" for sort in sorts] + ["AnyNode"]
    text = HEAD % ", ".join(names)
    text += "".join(impl(it, spanned, starts, ends) for it in types.values())
    return text + "".join(map(link, sorts))
