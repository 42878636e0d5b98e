//! The built library, called as C calls it. `include/swap.h` declares the same functions.

/// A function for each call, with its arguments in C's order: bytes to read, a number, bytes to write. C takes bytes as
/// a pointer and a length.
macro_rules! calls {
    ($(
        $(#[$about:meta])*
        $name:ident = $symbol:ident(
            $( $(read $read:ident)? $(number $number:ident)? $(write $write:ident)? ),*
        );
    )*) => { $(
        $(#[$about])*
        pub fn $name(
            $( $($read: &[u8])? $($number: u32)? $($write: &mut [u8])? ),*
        ) -> u32 {
            extern "C" {
                fn $symbol(
                    $(
                        $($read: *const u8, _: usize)?
                        $($number: u32)?
                        $($write: *mut u8, _: usize)?
                    ),*
                ) -> u32;
            }
            // SAFETY: each pointer and length are one slice's, and the call writes only to what is lent alone.
            unsafe {
                $symbol(
                    $(
                        $($read.as_ptr(), $read.len())?
                        $($number)?
                        $($write.as_mut_ptr(), $write.len())?
                    ),*
                )
            }
        }
    )* };
}

calls! {
    /// The engine's check of a sheet, in one number.
    check = swap_check(read sheet);

    /// The engine's run of a journal, in one number.
    run = swap_run(read sheet, read setup, read journal);

    /// The engine's list of open steps, in one number.
    list = swap_list(read sheet, read setup, read journal, write output);

    /// The engine's report, in one number.
    report = swap_report(read sheet, read setup, read journal, write output);

    /// The engine's verdicts of an outage of so many blocks, in one number.
    outage = swap_outage(read sheet, read setup, read journal, number blocks, write output);

    /// The engine's slack of each party, in one number.
    slack = swap_slack(read sheet, read setup, read journal, write output);

    /// The engine's page, in one number.
    page = swap_page(read sheet, read setup, read journal, write output);

    /// The engine's nLockTime and nSequence of each transaction, in one number.
    timelocks = swap_timelocks(read sheet, read setup, number base, write output);

    /// The engine's run of every swap of a bundle, in one number.
    desk = swap_desk(read sheet, read bundle, write output);

    /// The engine's check of another firm's block list, in one number.
    blocks = swap_blocks(read sheet, read setup, read list);

    /// The engine's earliest block list of an ending, in one number.
    earliest = swap_earliest(read sheet, read setup, number mask, read destinations, write output);

    /// The engine's answer whether a step would pass, in one number.
    ask = swap_ask(read sheet, read setup, read journal, read step);

    /// The engine's few steps of a refused journal, in one number.
    shrink = swap_shrink(read sheet, read setup, read journal, write output);

    /// The engine's commit of a step to the journal that the buffer starts with, in one number.
    commit = swap_commit(read sheet, read setup, read step, number count, write buffer, number size);
}
