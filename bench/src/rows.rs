//! A row of the table: one operation on stored inputs, through the library and through what it is held
//! against, by the same loop. `nothing` is a function that returns at once: what the loop itself costs.

pub struct Row {
    pub group: &'static str,
    pub name: String,
    /// the most that the ratio is to be, where that was said
    pub limit: Option<f64>,
    /// how many calls one run makes
    pub calls: usize,
    /// how many answers differ, of all inputs
    pub differ: Box<dyn Fn() -> usize>,
    pub ours: Box<dyn Fn()>,
    /// none where the library refuses what the crate does not
    pub theirs: Option<Box<dyn Fn()>>,
    pub nothing: Box<dyn Fn()>,
}

std::arch::global_asm!(".globl bench_nothing", "bench_nothing:", "mov rax, rdi", "ret");

extern "C" {
    fn bench_nothing();
}

/// The function that returns at once, as one of any type.
pub fn nothing<F: Copy>() -> F {
    let f: unsafe extern "C" fn() = bench_nothing;
    assert_eq!(std::mem::size_of::<F>(), std::mem::size_of_val(&f));
    unsafe { std::mem::transmute_copy(&f) }
}

/// How many answers to the inputs differ.
pub fn differing<I, R: PartialEq>(inputs: &[I], ours: impl Fn(&I) -> R, theirs: impl Fn(&I) -> R) -> usize {
    inputs.iter().filter(|i| ours(i) != theirs(i)).count()
}

/// The loop that makes a call on each input, for functions of one type.
#[macro_export]
macro_rules! calls {
    ($($a:ident: $t:ty),* => $r:ty) => {
        type Call = unsafe extern "C" fn($($t),*) -> $r;
        type Input = ($($t,)*);
        #[inline(never)]
        fn run(call: Call, inputs: &[Input]) {
            let call = std::hint::black_box(call);
            for &($($a,)*) in inputs {
                std::hint::black_box(unsafe { call($($a),*) });
            }
        }
    };
}

/// A row of single calls: `row!(rows, "group", "name", library_function(a: Type = drawn, ..) -> Answer, the crate's)`.
#[macro_export]
macro_rules! row {
    ($rows:ident, $group:literal, $name:literal, $ours:ident($($a:ident: $t:ty = $draw:expr),*) -> $r:ty, $theirs:expr) => {{
        extern "C" {
            fn $ours($($a: $t),*) -> $r;
        }
        extern "C" fn theirs($($a: $t),*) -> $r {
            $theirs
        }
        $crate::calls!($($a: $t),* => $r);
        let inputs: &'static [Input] = Vec::leak((0..$crate::ops::CASES).map(|_| ($($draw,)*)).collect());
        $rows.push($crate::rows::Row {
            group: $group,
            name: $name.to_string(),
            limit: None,
            calls: inputs.len(),
            differ: Box::new(move || {
                $crate::rows::differing(inputs, |&($($a,)*)| unsafe { $ours($($a),*) }, |&($($a,)*)| theirs($($a),*))
            }),
            ours: Box::new(move || run($ours, inputs)),
            theirs: Some(Box::new(move || run(theirs, inputs))),
            nothing: Box::new(move || run($crate::rows::nothing::<Call>(), inputs)),
        });
    }};
}

/// A row of calls that are refused: the same with the refusal number that is due, and nothing to hold it against.
#[macro_export]
macro_rules! refused {
    ($rows:ident, $number:literal, $name:literal, $ours:ident($($a:ident: $t:ty = $draw:expr),*) -> $r:ty) => {{
        extern "C" {
            fn $ours($($a: $t),*) -> $r;
        }
        $crate::calls!($($a: $t),* => $r);
        let inputs: &'static [Input] = Vec::leak((0..$crate::ops::CASES).map(|_| ($($draw,)*)).collect());
        $rows.push($crate::rows::Row {
            group: "refused",
            name: format!("{}: {}", $name, $number),
            limit: None,
            calls: inputs.len(),
            differ: Box::new(move || inputs.iter().filter(|&&($($a,)*)| unsafe { $ours($($a),*) }.refusal != $number).count()),
            ours: Box::new(move || run($ours, inputs)),
            theirs: None,
            nothing: Box::new(move || run($crate::rows::nothing::<Call>(), inputs)),
        });
    }};
}
