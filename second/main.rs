//! The independent second program: it answers what the library answers by other ways, and says where the two differ.
//! It takes nothing from the library's text; its formulas are those that each module names.

mod cases;
mod corpus;
mod days;
mod feasts;
mod kinds;
mod lines;
mod marks;
mod outside;
mod page_cases;
mod pages;
mod periods;
mod pieces;
mod sheets;
mod stored;
mod tables;
mod transcripts;
mod years;

use std::process::ExitCode;

const USAGE: &str = "\
usage: second cases < LINES             compares lines 'CALL NUMBERS: ANSWER' with its own answers
       second answers < CALLS           prints such lines for calls 'CALL NUMBERS'
       second years                     prints the call 'year STYLE YEAR' for every year
       second survey < LINES            compares the lines of all those calls
       second outside FILE.. < LINES    compares lines of such calls with printed tables
       second periods                   prints in how many years all, and the key, returns so many years later
       second lines < LINES             prints 'NUMBER START LENGTH' for each dating line
       second run < LINES               prints for each dating line what the program datelines must print
       second corpus                    prints dating lines, good and bad
       second marks < CASES             prints 'REFUSAL COUNT' and for each mark ' START END FIRST PAST NUMBER'
       second datemarks < TRANSCRIPT    prints for a transcript what the program datemarks must print
       second transcripts               prints cases 'SIZE: PIECE PIECE ..' of transcripts, good and bad
       second files N FOLDER < CASES    writes each Nth case's transcript to FOLDER/NUMBER, and what datemarks must print
                                        for it to FOLDER/NUMBER.wanted
       second pages < CASES             prints 'REFUSAL COUNT' and for each line ' NUMBER'
       second page_cases                prints cases 'SIZE: PIECE PIECE ..' of pages of lines, good and bad
       second sample WHAT               prints of the lines, pages or transcripts how many there are of each kind, and the
                                        first and the last of them";

fn main() -> ExitCode {
    let words: Vec<String> = std::env::args().skip(1).collect();
    let lines = std::io::stdin().lock();
    match words.iter().map(String::as_str).collect::<Vec<_>>()[..] {
        ["cases"] => cases::compare(lines),
        ["answers"] => cases::answer(lines),
        ["years"] => years::print(),
        ["survey"] => years::compare(lines),
        ["outside", ref files @ ..] if !files.is_empty() => outside::compare(files, lines),
        ["periods"] => periods::print(),
        ["lines"] => lines::answer(lines),
        ["run"] => lines::run(lines),
        ["corpus"] => corpus::print(),
        ["marks"] => pieces::answer(lines, marks::answered),
        ["datemarks"] => marks::run(lines),
        ["transcripts"] => transcripts::print(),
        ["files", step, folder] => pieces::write_files(step, folder, lines, marks::program_output),
        ["pages"] => pieces::answer(lines, pages::answered),
        ["page_cases"] => page_cases::print(),
        ["sample", "lines"] => corpus::sample(),
        ["sample", "pages"] => page_cases::sample(),
        ["sample", "transcripts"] => transcripts::sample(),
        _ => {
            eprintln!("{USAGE}");
            ExitCode::from(2)
        }
    }
}
