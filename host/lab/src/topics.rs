//! The longer explanations behind `help`.

pub const TOPICS: [(&str, &str); 9] = [
    (
        "how",
        "HOW says which of the due bits a cut leaves turned. The due bits are those that the call's one\n\
         program or erase would turn, in order: lowest byte first, in a byte bit 0 first.\n\
         \x20 none, all      no bit, every bit\n\
         \x20 first N        the first N; first N%: the first N in a hundred\n\
         \x20 last N         the last N; last N%\n\
         \x20 but N          all but the one at index N, counted from 0; but last: all but the last\n\
         \x20 every N R      those whose index leaves R when divided by N\n\
         Example: cut commit 5 / first 10%\n\
         A call that is refused has no due bits: the power then fails between two calls.",
    ),
    (
        "planes",
        "On a flash of two planes, as in: format-to-the-end 8 8 16 2, even and odd blocks are programmed together.\n\
         The next data page comes from the other plane than the last, if it has clean pages, and a page of a\n\
         change carries its write number in Reserved: of two writes of a logical page the higher one holds.\n\
         A write or a drop may answer while the page that it programs still runs. The array holds it already;\n\
         a cut leaves any part of its due bits turned. It runs until the next program in its plane begins, a\n\
         commit or a lone write is done, or a checkpoint, reclaim, format or recover begins. Calls say which run,\n\
         'show block' says it too, and a picture with R.\n\
         \x20 cut CALL / HOW / PAGE HOW ..     HOW of the call's own bits, and of each page that runs beside it\n\
         \x20 cut CALL / early / PAGE HOW ..   before the call's operation begins: every page that runs is cut\n\
         \x20 cut between / PAGE HOW ..        between two calls\n\
         Of a page that is not named every bit is turned, and so it is in a sweep. A mark may be whole while an\n\
         earlier page of its change is torn: such a change is not committed.",
    ),
    (
        "sweep",
        "sweep CALL tries the call once for each number of due bits: none turned, the first turned, the\n\
         first two, and so on to all; after each cut it recovers and reads every logical page. It counts\n\
         how many recoveries gave the settings from before the call and how many those after it.\n\
         \x20 / last         the last bits are turned first\n\
         \x20 / but          every bit but one, once for each bit, and then every bit\n\
         \x20 / first 100    in steps of 100 bits, for large flashes\n\
         sweep until-done CALL sweeps every stride. The flash is as before afterwards. Of a format that was\n\
         cut nothing is promised, so its sweep only counts what recoveries gave. At the prompt Ctrl-C stops a\n\
         sweep and keeps the session.",
    ),
    (
        "pages",
        "A page is erased (all ones), whole (its Zeros field agrees with its zero bits) or torn (it does not;\n\
         a torn page belongs to nobody; 'help torn': by how much). A whole page belongs to a transaction, by\n\
         its TxID; a page with TxID 0 is a lone write, a transaction by itself. A page with TxCnt above 0 is\n\
         its mark. A page of Kind 3 is a drop: it unmaps its logical page once it is entered, and never holds.\n\
         Scan order is the unavailable blocks, then the available ones. Clean are the erased pages after the\n\
         last one of a block that is not erased; only these are programmed. The pointer is the block from which\n\
         on a checkpoint takes free ones. A stride is what one call of a format, a checkpoint or a reclaim\n\
         does: at most one program or erase.\n\
         \x20 active            its identifier is one of an open change\n\
         \x20 committed         its mark's TxCnt equals the number of its whole pages in scan order, and TxVer\n\
         \x20                   is above the last version in the newest checkpoint: a recovery enters it\n\
         \x20 dead              over: the newest checkpoint's map has its outcome, and a recovery does not redo\n\
         \x20                   it. The count agrees with TxVer not above that version; or other pages of its\n\
         \x20                   change have left the scan, and a page of it holds or, on one plane, its mark has\n\
         \x20                   such a TxVer\n\
         \x20 abandoned         none of these, and all of its change is in scan order: aborted or lost in a cut\n\
         \x20 not committed in the scan\n\
         \x20                   dead or abandoned, and nobody can tell which: pages of its change may have\n\
         \x20                   left the scan, or recover refuses\n\
         \x20 outside the scan  in a checkpointed or free block: a recovery no longer looks at it, and nothing\n\
         \x20                   on it tells whether it was committed or abandoned\n\
         \x20 bad page          a scanned whole page that makes recover answer 4, and what is wrong with it\n\
         \x20 runs              on two planes: its program may not have ended ('help planes')\n\
         \x20 holds             the map points to this page: a read gives it. Committed, dead and outside the\n\
         \x20                   scan say nothing of it; only the map does\n\
         \x20 and yet holds     the map points to it, and a read gives it as it stands, though it is torn, erased\n\
         \x20                   or carries another LPN: its bits changed, or something else wrote to the flash\n\
         In the front, map and zone pages belong to the newest complete checkpoint, to an older one, or to\n\
         none that is complete. After a cut the state is lost; zones and 'holds' are then shown as a recovery\n\
         will find them. Where recover refuses there is no map, and nothing is said of what holds. The zones\n\
         are then known only if it refuses with 4, after it has passed the checkpoint.",
    ),
    (
        "torn",
        "Torn by N: N is the page's Zeros field minus the zero bits counted in the 526 bytes before it. After a\n\
         program that was cut it is what is still missing: each due bit of the 526 bytes that was not turned\n\
         counts 1, bit i of Zeros counts 2 to the power of i. It falls with each bit that is turned.\n\
         \x20 early             the plug was pulled early: a large number, at most 65534\n\
         \x20 late              the plug was pulled late: a small number, at least 1\n\
         It does not tell how many bits are missing. Which turn first is the chip's affair, and 32768 may be\n\
         one bit of Zeros. Of two cuts of one program, where the second turned all that the first had and\n\
         more, the second has the smaller number; between two different pages it is a hint only.\n\
         After an erase that was cut it is the other way round, early small and late large; the pages of such\n\
         a block are not in scan order.\n\
         It is never below 0 on a page as the layer left it. Where it is, a bit changed by itself, or something\n\
         else wrote to the flash.",
    ),
    (
        "data",
        "DATA is a page of 512 bytes: a text in quotes, filled up with zero bytes (\\\" \\\\ and \\n are allowed\n\
         in it); or a seed number s, for which byte i is (31 s + 7 i + 13 (i / 256)) mod 256; or short, which\n\
         is one byte too few and so refused.",
    ),
    (
        "keys",
        "At the prompt: left, right, Home, End, Delete, Backspace; up and down go through past lines; Tab\n\
         completes a word of the lab. Ctrl-A and Ctrl-E as Home and End, Ctrl-U takes away all before the\n\
         cursor, Ctrl-K all from it on, Ctrl-W the word before it, Ctrl-L clears the screen.\n\
         Ctrl-C forgets the line and keeps the session; while a sweep runs, it stops the sweep. Ctrl-D on an\n\
         empty line ends the lab. 'save FILE' writes what was carried out as a script.",
    ),
    (
        "refusals",
        "\x20 1 bad frame         buffers or state out of range (the lab says which); also: no state, recover first\n\
         \x20 2 no checkpoint     recover finds no complete checkpoint (the lab says what stands in the front)\n\
         \x20 3 bad checkpoint    a map entry or a block that cannot be: out of range, twice, or where nothing may stand\n\
         \x20                     (the lab says which)\n\
         \x20 4 bad page          a scanned whole page that the layer never writes (the lab says which, and why)\n\
         \x20 5 bad logical page  there is no such logical page\n\
         \x20 6 bad identifier    0 or 4294967295\n\
         \x20 7 identifier live   active, or still on a whole page in scan order\n\
         \x20 8 not begun         no open change has that identifier\n\
         \x20 9 places full       eight changes are open\n\
         \x2010 too long          41 pages or more are already written, drops counted; the change can be committed or aborted\n\
         \x2011 bad length        data not 512 bytes\n\
         \x2012 zone short        too few clean pages; checkpoint, and if that is not enough reclaim and checkpoint again\n\
         \x2013 versions spent    no number is left\n\
         \x2014 never written     the logical page is unmapped: never written, or dropped\n\
         \x2015 no gain           no checkpointed block has a page to spare\n\
         \x2016 reserve short     fewer clean pages than copies due\n\
         \x2017 busy              another command of several strides is under way",
    ),
    (
        "traces",
        "These words make worlds by hand and run the traces of the tests. The first five write past the\n\
         layer, as no switch does, and the book does not see it. Behind '=' a line may have all that a trace\n\
         says of a call; a difference is an error, and 'lab run' ends with how many such lines it compared.\n\
         Example: page 16 \"VLAN 20\" 3 0 5 0 0 0 makes page 16 a whole data page of identifier 5, LPN 3,\n\
         without a mark.",
    ),
];

#[cfg(test)]
mod tests {
    use super::*;
    use bokuhira::Refusal;

    #[test]
    fn the_refusals_have_their_words() {
        let text = TOPICS.iter().find(|(topic, _)| *topic == "refusals").unwrap().1;
        let numbered: Vec<&str> = text.lines().filter(|line| !line.starts_with("     ")).collect();
        assert_eq!(numbered.len(), 17);
        for (number, line) in (1..).zip(numbered) {
            let (head, means) = line.split_at(22);
            assert_eq!(head.trim_end(), format!("{number:3} {}", Refusal(number).word()));
            assert!(!means.starts_with(' ') && !means.is_empty(), "{line}");
        }
    }
}
