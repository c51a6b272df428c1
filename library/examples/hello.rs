// A first program in Rust, by the C interface.
//   rustc --edition 2021 -L release/x86_64-linux library/examples/hello.rs -o hello && ./hello
mod flagops;

fn main() -> Result<(), flagops::Refused> {
    let mut seat = flagops::Seat::new()?;
    seat.open(br#"{"flags":{"hi":{"state":"ENABLED","variants":{"on":true,"off":false},"defaultVariant":"off",
        "targeting":{"if":[{"ends_with":[{"var":"email"},"@example.com"]},"on"]}}}}"#)?;
    let answer = seat.resolve("hi", flagops::BOOL, "false", r#"{"email":"ann@example.com"}"#, 0)?;
    println!("hi is {}, by the variant {}", answer.value, answer.variant.as_deref().unwrap_or("(none)"));
    Ok(())
}
