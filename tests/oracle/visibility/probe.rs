// Compiled inside opb.rs, beside its private functions: what the oracle calls.

/// What `parse_opb_data` answers, as recorded rows
pub(crate) fn read_rows<R: BufRead>(reader: &mut R, opts: Options) -> anyhow::Result<Vec<crate::Row>> {
    let data = parse_opb_data(reader, opts)?;
    Ok(data
        .into_iter()
        .map(|line| match line {
            OpbData::Cmt(text) => crate::Row::comment(text),
            OpbData::Constr(constraint) => constraint.recorded(),
            OpbData::Obj(objective) => objective.recorded(),
        })
        .collect())
}

/// How many statements `parse_opb_data` answers: its own work alone, for bench/
pub(crate) fn count_statements<R: BufRead>(reader: &mut R, opts: Options) -> anyhow::Result<usize> {
    Ok(parse_opb_data(reader, opts)?.len())
}

/// `write_objective` with an offset; `write_opb_lines` gives it none but 0
pub(crate) fn write_goal<W: Write>(writer: &mut W, terms: Vec<(Lit, usize)>, offset: isize, opts: Options) -> io::Result<()> {
    write_objective(writer, (terms, offset), opts)
}
