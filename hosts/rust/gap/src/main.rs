//! Draws `docs/gap.svg` on standard output: the credit of a contract with missed months as the part gives it, month by month, and
//! what three misreadings would show. Every figure in it is the part's answer or worked out from its answers; where these no
//! longer show what the captions say, nothing is drawn.

mod figures;
mod panel;
mod picture;
mod svg;

use figures::Figures;
use std::process::ExitCode;

fn main() -> ExitCode {
    match Figures::ask() {
        Ok(figures) => {
            print!("{}", picture::draw(&figures));
            ExitCode::SUCCESS
        }
        Err(error) => {
            eprintln!("gap: {error}");
            ExitCode::FAILURE
        }
    }
}
