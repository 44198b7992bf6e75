//! What the help says.

use crate::args::Command;

pub(super) fn detail(command: Command) -> &'static str {
    match command {
        Command::Show => SHOW,
        Command::Write => WRITE,
        Command::Check => CHECK,
        Command::Normal => NORMAL,
        Command::Fit => FIT,
        Command::Compare => COMPARE,
        Command::Keep => KEEP,
        Command::Missing => MISSING,
        Command::Narrowest => NARROWEST,
        Command::Catalogue => CATALOGUE,
        Command::Hierarchy => HIERARCHY,
        Command::Delivered => DELIVERED,
        Command::Desk => DESK,
        Command::Doubles => DOUBLES,
        Command::Unfold => UNFOLD,
        Command::Owl => OWL,
        Command::FromOwl => FROM_OWL,
    }
}

const SHOW: &str = "\
Shows blocks as text that 'gx write' reads back to the same blocks. An entry's number is written, as #12, only where entries do
not stand in the order of their numbers; --numbers writes them all. Named entries stay as they are; with --dictionary they have
the words of the dictionary. --html writes a page as well; of a field sheet it is a form for paper, with a box for each entry and room
for what was counted. --sheet refuses what is no field sheet (19).
";

const WRITE: &str = "\
Reads a text and writes its blocks, or the bytes of a list of pairs, a dictionary or a list of services, to standard output or into
a file. Nothing is written where the library refuses them. Without --dictionary a description may name any description from 1 to 64.
";

const FIT: &str = "\
Answers whether the top item of the specimen fits the description; for a no it names the first entry that is not met and the item
that does not meet it, with its path and line. With --pairs a specimen is refused in which an item has both properties of a pair
(12).
";

const CHECK: &str = "\
Says what the library's reader says. Of a refusal it tells the row of the table, what is wrong in words, and shows the block or
entry in its surroundings; of an entry of a text also the line. The reader takes no dictionary; with --dictionary a description may
name others. With --pairs a specimen is refused in which an item has both properties of a pair (12).
";

const NORMAL: &str = "\
Writes the library's normal form of a description. Links from 32768 up lead to one item only: at least 2 by one makes its place
impossible, and at most 1 or more, which every item meets, is left out. With --pairs a place with both properties of a pair is
impossible too, and where it has the one, lacks the other is left out.
";

const UNFOLD: &str = "\
Writes the plain description that a description stands for: each named entry is replaced by what the dictionary has under its
name, in the same order. Refused is a name that the dictionary does not have (13), and a description of more than 1,008 entries or
deeper than 32 once unfolded (14).
";

const COMPARE: &str = "\
Answers whether every item that fits the supplier's description fits the service's. For a no it names the first entry that fails,
where it stands, what the supplier's description says there, and shows a specimen that fits the first and not the second. With
--pairs the answer is about the records that keep the list, and so is the specimen. Named entries are unfolded: what is told and
shown, and the numbers of entries, are those of the plain descriptions. For a yes it names the entries of the supplier's description
that earn it, as 'gx keep' shows them. --all tells every entry that fails: each that the supplier's description is not contained in
where the entry stands with its owners alone. Of each it tells what an item of a specimen of its own shows.
";

const KEEP: &str = "\
Marks the entries of the supplier's description that earn its being contained in the service's: cut down to them it is still contained,
and without any one of them, 'every' entries apart, it is not. It is one such set: leaving out was tried from the last entry to the
first. --out writes the description cut down, in the form that --to says. --html writes a page with both.
";

const MISSING: &str = "\
Marks the entries of the service that the supplier's description lacks for a yes: with them it is contained, and without any one of
them, 'every' entries apart, it is not. It is one such set: leaving out was tried from the last entry to the first. --out writes them
as a description, in the form that --to says. Where no item fits both, nothing can be added: the entries that are marked contradict
the supplier's, which are marked too, and nothing is written. Both together have at most 16 blocks (1). --html writes a page with the
supplier's description, in which the addition stands in its places, beside the service's.
";

const NARROWEST: &str = "\
Writes the narrowest description that contains both, in normal form: whatever fits one of them fits it, and every description of which
that is so contains it. It says what both say: common properties and lacks, the smaller at least, the larger at most, and of common
'every' the same below. Where nothing fits one of the two it is the normal form of the other, and the first line tells it. Both together
have at most 16 blocks (1), the result at most 1,008 entries (7). --out writes it into a file, --html a page with the two and it side by
side: each entry leads to what it comes from, and what is given up is grey, with its reason. With --sheet both have to be field sheets.
";

const CATALOGUE: &str = "\
Answers for each service whether every item that fits the supplier's description fits the service's: a line with its file name, and
'contained' or 'not contained'. 'gx compare' explains a no. Services are files, folders of files, or one file that is a list: the
blocks of up to 64 services laid end to end, where each block numbered 1 begins one, or a text of them. A service that is refused stops none of the
others. Files of one name are told apart by as much of the way to them as is needed. The library is asked once for 64 services. With --pairs and --dictionary the answers are those of 'gx compare' with them.
--why tells of each no which entry fails first; --only contained tells the services alone that contain the description; with --any
one such service is enough for a yes. --html writes a page with a table, index.html in that folder, in which each service leads to a
page of its own.
";

const OWL: &str = "\
Writes an ontology with the classes Supplier and Service, and SupplierOnly for what fits the first and not the second. The
supplier's description is contained in the service's exactly if a reasoner finds Supplier below Service, or SupplierOnly
unsatisfiable. Property 7 is the class property_7, link 1 the object property link_1; words become labels. Links from 32768 up
are functional. With --pairs the two properties of a pair are disjoint classes. With --dictionary each
description is a class with its definition, description_1 and so on. Of several services, or all of a catalogue, the classes are
Service_1, SupplierOnly_1 and so on.

Konclude says whether SupplierOnly is satisfiable (two workers: with one it may hang), and classifies a catalogue:
    gx owl supplier.txt service.txt -o question.ofn
    Konclude satisfiability -w 2 -i question.ofn -x 'urn:goltximen#SupplierOnly'
    gx owl supplier.txt services/* -o all.ofn
    Konclude classification -w 2 -i all.ofn -o classes.owx

The program FaCT++ reads no OWL; --fact writes the same classes as it reads them. It says whether Supplier [= Service holds:
    gx owl supplier.txt service.txt --fact -o question.lisp
    printf '%s\\n' '[LeveLogger]' 'file = /dev/null' 'allowedLevel = 0' \\
        '[Tuning]' '[Query]' 'TBox = question.lisp' \\
        'Target = Supplier' 'Target2 = Service' > question.conf
    FaCT++ question.conf
Of several services, Target2 is Service_1 and so on.

HermiT reads question.ofn through the OWL API, as in Prot\u{e9}g\u{e9}: start the reasoner there and look whether SupplierOnly is
below owl:Nothing.
";

const HIERARCHY: &str = "\
Ranks up to 64 services. A service stands below those that allow all that it allows, and more: general above special, a line for
each class. Services that say the same are one class, with '=' between their names. A class directly below several stands below the
first of them, and 'also below' names the others. Services are files, folders of files, or one file that is a list, as for gx
catalogue. More than 64 are refused (8), and so is the whole where one of them is: what is missing could stand between two others.
With --pairs the order is that among the records that keep the list. With --dictionary named entries are unfolded first.
--csv writes a row for each service: its class, by the first service of it, its direct superiors, with ';' between them, and a column
for each service with 1 where that contains it, else 0. --dot writes a graph for Graphviz, in which each class leads up to those directly above. --owl
writes an ontology in OWL 2 functional syntax: a class for each service with its definition, and what was found, SubClassOf for each
direct superior and EquivalentClasses for services that say the same, so that a reasoner finds no class elsewhere. --svg
draws the classes in layers, --html writes a page with the tree, the drawing, and of each service what stands above and below it and
what says the same.
";

const DELIVERED: &str = "\
Answers for each item of a delivered record, at most 256, whether it fits the description: a line each, and for a no the first entry that
it does not meet, with a path through the record to the item that breaks it. Items may be shared, and links may go round. A record is a
text
    record of 3 items
    item 1 sample item 2
    item 2 has sealed
or a table with commas, item,says,name,to, with rows like 1,link,sample,2 and 2,has,sealed, where the highest item that is named is the
last; or blocks, with --items N. gx show, write and check take all three. An item number of 0 or above the total is refused (10), a second
item by a link that leads to one only (9), and with --pairs an item with both properties of a pair (12). --html writes a page with a
table of all items, and of each no the path drawn.
";

const DESK: &str = "\
A drafting desk: the file is its bytes, and where there is none the desk is empty. A step is
    add ENTRY            adds an entry at the end: has sealed, or 1,7
    add in 2 ENTRY       the same, owned by entry 2, an 'every'
    take-off             takes off the last entry
    stand N              names what is held as stand N; up to four
    back N               goes back to what was held when stand N was named
    drop N               drops stand N
    show                 the entries with their numbers, and the stands
    write                the description, in the form of --to, into --out
and after it may stand a remark, which begins with //. Where no step is given, they are read from standard input, a line each. Each is one call of
the library; what it refuses alters nothing (16 full, 17 none to take off, 18 no such stand, 4, 5 and 6 as of any entry; a desk takes no
dictionary, so 'named 2' is 4). The file is written whole or not at all, before more steps are waited for and before what they answer is
told; FILE~ has the desk before the last step. While somebody works at it FILE.lock is there and locked; the system frees it when the program ends, however that is.
--against tells after each step, and where it is shown, which services of a folder contain the draft; --dictionary has the descriptions
that these name. --html writes a page with the draft, these services, and what each stand keeps. A file that holds no desk is refused
(20).
";

const DOUBLES: &str = "\
Finds descriptions that mean the same: a line for each meaning that several have, with '=' between their names, and then those that
stand alone. Two mean the same exactly if their normal forms are the same bytes, and these are compared. So the same items fit both
in every record, or of both the same items in every record that keeps the list of --pairs; 'gx compare' says of each of the two that
it is contained in the other. Descriptions are files, folders of files, or lists of services. With --dictionary named entries are
unfolded first. One that is refused is told, and stops none of the others. --html writes a page with what each meaning is, in normal
form.
";

pub(super) const COMPLETIONS: &str = "\
Prints what a shell reads to complete the command lines of gx: the commands, and of each its options and their words. For one session
    eval \"$(gx completions bash)\"
    eval \"$(gx completions zsh)\"
    gx completions fish | source
and for all of them in a file where the shell looks:
    gx completions bash > ~/.local/share/bash-completion/completions/gx
    gx completions fish > ~/.config/fish/completions/gx.fish
and for zsh as _gx in a folder of its fpath.
";

const FROM_OWL: &str = "\
Reads OWL 2 functional syntax: a class expression, or an ontology in which EquivalentClasses defines classes. It takes classes,
ObjectComplementOf a class, ObjectIntersectionOf, ObjectAllValuesFrom, ObjectMinCardinality, ObjectMaxCardinality,
ObjectExactCardinality, ObjectSomeValuesFrom owl:Thing, owl:Thing and owl:Nothing, and of links from 32768 up
FunctionalObjectProperty; of anything else it says what it is and where. DisjointClasses of classes by their names are pairs of
properties that exclude each other: --sort pairs writes these, and not the description.
Classes description_1 and so on, with a definition, are put in where they are named. Names are property_7 and link_1 of <urn:goltximen#>, or others whose label or last part the names file knows.
";

pub(super) const ALL: &str = "
Every answer is that of the proved library; gx reads, writes, draws and words it.

The file laboratory.gx of this folder, or of the nearest folder above that has one, tells the files that all answers are given under;
the variable GX_LAB names another, and --no-lab takes none. It has lines like
    names laboratory.names
    pairs soil.pairs
    dictionary cores.dictionary
with files beside it. An option of the command line counts before it. Each answer says under which files it was given, with their
SHA-256.

Inputs are files, or standard input as -, also where no FILE is given. They are blocks or text, told apart by their bytes: an input
with a zero byte, or an empty one, is blocks (the second byte of all accepted blocks is zero); any other is text. Blocks that are
accepted in the shorter stored form are read in it, and a file that ends in .stored is taken for it in any case. --from says it where
that is wrong. A folder stands for its files, without hidden ones,
names files (*.names), lists of pairs (*.pairs), dictionaries (*.dictionary), settings (*.gx) and folders: each gets a line, and one
bad file stops none of the others. So it is for several files. A folder without an input is an error; folders in it are told, and
read with --recursive.
With two folders each file of the first goes with each of the second.

A text has an entry on each line, or divides them by ';':

    every link 1 \"sample\" [
        at least 1 link 2 \"core\"
        at least 1 link 32768 \"taken from field\"
        has property 7 \"sealed\"
    ]

The entries are
    has property P          lacks property P
    at least N link L       at most N link L
    every link L [ ... ]    nothing fits
    named D                 which stands for description D of a dictionary
and, shown as what they stand for,
    exactly N link L        no link L        some link L
and in specimens
    has property P          group of COUNT link L [ ... ]
or, as at the desk, kind,name,number: 5,1 [3,2,1; 4,2,1]. After a number may come its word in quotes; the word alone stands for
the number where the names file, or the text before, knows it: at least 1 core. Entries are numbered as they are written, from 1;
#12 before an entry gives it the number 12, and those after it count on. The word 'description' or 'specimen' may come first; a
text without entries needs it. // begins a remark.

In all inputs of an answer a word stands for one number, and a number has one word; else both places are told. Only the names file
settles it: its word is shown, and the answer tells which other one was sent.

Links from 32768 up, such as 'taken from field', lead to one item only. No record has two items by one: a group that brings its
owner a second one is refused (9), at least 2 is impossible, and every item meets at most 1 or more.

Properties such as clay and sand never hold of one item. A list of up to 64 pairs says so; it is bytes, four for a pair, or a
text like
    pairs
    property 7 \"clay\" excludes property 8 \"sand\"
or, as at the desk, pairs: 7,8. With --pairs no record has an item with both properties of a pair: a place of a description with
both is impossible, one with the one lacks the other, and a specimen with both at one item is refused (12). A list with a 0, or
with the same property twice in a pair, is refused (11).

Suppliers repeat themselves. A dictionary gives up to 64 descriptions a number each; it is their blocks laid end to end, or a text
like
    dictionary
    description 1 \"sealed core\" [
        has property 7 \"sealed\"
    ]
    description 2 [
        named 1 \"sealed core\"
        at least 2 link 3 \"layer\"
    ]
or, as at the desk, dictionary: [1,7]; [9,1; 3,3,2]. Its descriptions count from 1 as they are written, and the entries in each of
them too; each may name only earlier ones. With --dictionary an entry 'named 2', or 9,2 as at the desk, stands for the second, put
in at that place. A name that the dictionary does not have is refused (13), so is a description that has more than 1,008 entries
or goes deeper than 32 once unfolded (14), and so is a dictionary with more than 64 descriptions (8). A refusal of the dictionary
has input 100, one of its n-th description input 100 + n.

A list of pairs or of services, a dictionary or a delivered record that is shown, written or checked is known by its heading, by the
ending of its file, .pairs, .services, .dictionary or .record, or by --sort; blocks of a record also by --items. After --pairs and --dictionary either may be text or bytes.

A list of services, for gx catalogue and gx hierarchy, is the blocks of up to 64 descriptions laid end to end, where each block
numbered 1 begins one, or a text like
    services
    service 1 [
        has property 7 \"sealed\"
    ]
    service 2 []
or, as at the desk, services: [1,7]; []. A refusal of the list has input 2 (1, 8), one of its n-th service input 1 + n.

A names file has lines like
    property 7 \"sealed\"
    link 1 \"sample\" \"samples\"
    description 1 \"sealed core\"
where the second word is the plural of a link's word.

Exit status: 0 yes, contained, accepted or done; 1 no or not contained; 2 refused or a mistake in the input; 64 wrong usage,
or an output that would replace an input; 70 an error of gx. For several files it is the highest of theirs. Files are written whole
or not at all. What is shown is read back before.

gx COMMAND --help tells the options. gx --version tells the version, and that of the library.
";
