//! The generated scenario of `soak N`.

use std::fmt::Write;

use crate::types::Generator;

pub fn scenario(n: u32) -> String {
    let mut draws = Generator(n.into());
    let count = 2 + n % 15;
    let mut text = format!("steps {}\nmaster 127.0.0.1 9000\n", 200 + n % 301);
    let mut wires = String::new();
    for s in 1..=count {
        let mut model = String::from("counter 1000");
        if s > 1 {
            let [a, b, c] = [(); 3].map(|()| draws.draw());
            model = match a % 4 {
                0 => "lag 0 16384".into(),
                1 => format!("delay 0 {}", 1 + b % 8),
                2 => "limiter -400 400".into(),
                _ => "deadband 5".into(),
            };
            writeln!(wires, "wire s{} 0 s{s} 0", 1 + c % u64::from(count)).expect("a String");
        }
        let input = if s > 1 { "input 1 int32\n" } else { "" };
        write!(
            text,
            "slave s{s}\nuuid 00000000-0000-0000-0000-{s:012x}\naddress 127.0.0.1 {}\n\
             model {model}\n{input}output 2 int32\n",
            9000 + s
        )
        .expect("a String");
    }
    text + &wires + &format!("chaos {n} 0 100 100\n")
}
