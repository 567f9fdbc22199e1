//! `xid-table CRATE RELEASE UNICODE`: asks unicode-ident about every scalar value and writes the table of the crate `xid` into
//! the folder CRATE, for the code and for the definitions. RELEASE and UNICODE are the versions that the files name.
//! Prints the number of rows.
mod files;
mod rows;

use std::{fs, io, process};

fn main() -> io::Result<()> {
    let words: Vec<String> = std::env::args().skip(1).collect();
    let [folder, release, unicode] = words.as_slice() else {
        eprintln!("xid-table CRATE RELEASE UNICODE");
        process::exit(2)
    };
    let title = format!("XID_Start and XID_Continue of Unicode {unicode}, as unicode-ident {release} has them");
    let rows = rows::rows();
    fs::write(format!("{folder}/src/table.rt"), files::code(&title, &rows))?;
    fs::write(format!("{folder}/specs/Table.antt"), files::definitions(&title, &rows))?;
    println!("{}", rows.len());
    Ok(())
}
