# Completion of tape(1) for fish. Made by docs/completions.py from the program's help.

# Succeeds if the command is $argv[1], and the word at the cursor is its argument with the number $argv[2], or
# with a higher one if $argv[3] is +.
function __tape_at
    set -l command ''
    set -l place 1
    set -l is_value false
    for word in (commandline -opc)[2..]
        if $is_value
            set is_value false
            continue
        end
        switch $word
            case --block --date --file --files-from --form --format --join --labels --log --offset --provenance --record --set --stage
                set is_value true
            case '-*'
            case '*'
                if test -z "$command"
                    set command $word
                else
                    set place (math $place + 1)
                end
        end
    end
    $is_value; and return 1
    test "$command" = "$argv[1]"; or return 1
    test $place -eq $argv[2]; or test "$argv[3]" = + -a $place -gt $argv[2]
end

# Succeeds if the command is $argv[1].
function __tape_in
    string match -q -- $argv[1] (string match -v -- '-*' (commandline -opc)[2..])[1]
end

# Lists the files but images: none is offered for an output, which would replace it, nor for a stage.
function __tape_other
    string match -vir '\.tap(\t|$)' -- (__fish_complete_path (string replace -r '^--[a-z-]+=' '' -- (commandline -ct)))
end

complete -c tape -f
complete -c tape -l explain -d 'Explain errors, and say what to do next [default: on a terminal]'
complete -c tape -l no-explain -d 'Print errors without explanations, on a terminal too'
complete -c tape -s h -l help -d 'Print help (see a summary with '\''-h'\'')'
complete -c tape -n '__tape_at "" 1' -s V -l version -d 'Print version'
complete -c tape -n '__tape_at "" 1' -a list -d 'List the blocks, tape marks and labels of an image'
complete -c tape -n '__tape_at "" 1' -a show -d 'Show items of an image in full: label fields, or bytes'
complete -c tape -n '__tape_at "" 1' -a check -d 'Report which file sections are on the images and what is missing'
complete -c tape -n '__tape_at "" 1' -a survey -d 'Report what is complete, missing or damaged, and what to do about it'
complete -c tape -n '__tape_at "" 1' -a compare -d 'Report whether images can be readings of the same tape'
complete -c tape -n '__tape_at "" 1' -a merge -d 'Make one good image from several readings of a tape'
complete -c tape -n '__tape_at "" 1' -a convert -d 'Make a SIMH image of an image of another format'
complete -c tape -n '__tape_at "" 1' -a extract -d 'Recover one file from the images of its set'
complete -c tape -n '__tape_at "" 1' -a unpack -d 'Recover every file on the images into a directory'
complete -c tape -n '__tape_at "" 1' -a salvage -d 'Recover what is readable of a file that no image has completely'
complete -c tape -n '__tape_at "" 1' -a stage -d 'Show what a stage contains, and write its records'
complete -c tape -n '__tape_at "" 1' -a init -d 'Create blank labelled volumes'
complete -c tape -n '__tape_at "" 1' -a write -d 'Write files to labelled volumes'
complete -c tape -n '__tape_at "" 1' -a help -d 'Print the help of a command'
complete -c tape -n '__tape_at help 1' -a 'list show check survey compare merge convert extract unpack salvage stage init write'
complete -c tape -n '__tape_in list' -l offsets -d 'Print the byte offset and size of each item before its line'
complete -c tape -n '__tape_in list' -l json -d 'Print JSON: a line for each item, with its offset and size'
complete -c tape -n '__tape_at list 1 +' -F
complete -c tape -n '__tape_in show' -l raw -d 'Write the bytes of the items as they are'
complete -c tape -n '__tape_in show' -l ebcdic -d 'Show the text of blocks in EBCDIC (code page 037)'
complete -c tape -n '__tape_at show 1' -F
complete -c tape -n '__tape_in check' -l files-from -r -F -d 'More names, one per line ('\''-'\'': standard input)'
complete -c tape -n '__tape_in check' -l null -d 'Names in LIST end with NUL ('\''find -print0'\'')'
complete -c tape -n '__tape_at check 1 +' -F
complete -c tape -n '__tape_in survey' -l files-from -r -F -d 'More names, one per line ('\''-'\'': standard input)'
complete -c tape -n '__tape_in survey' -l null -d 'Names in LIST end with NUL ('\''find -print0'\'')'
complete -c tape -n '__tape_in survey' -l all -d 'Print each image, set, file and copy too, of any number of images'
complete -c tape -n '__tape_in survey' -l join -x -d 'Read the set identifier OTHER in labels as SET (may be repeated)'
complete -c tape -n '__tape_in survey' -l renumber -d 'Number files and sections by their order, if the labels do not: name the images in order'
complete -c tape -n '__tape_in survey' -l tsv -d 'Print tab-separated values, for scripts'
complete -c tape -n '__tape_in survey' -l json -d 'Print the same rows as JSON, one object per line'
complete -c tape -n '__tape_at survey 1 +' -F
complete -c tape -n '__tape_in compare' -l files-from -r -F -d 'More names, one per line ('\''-'\'': standard input)'
complete -c tape -n '__tape_in compare' -l null -d 'Names in LIST end with NUL ('\''find -print0'\'')'
complete -c tape -n '__tape_in compare' -l json -d 'Print the lines as JSON, one object per line'
complete -c tape -n '__tape_at compare 1 +' -F
complete -c tape -n '__tape_in merge' -l log -x -a '(__tape_other)' -d 'Also create LOG, with a row for each item that fewer than two images have, or that is bad in one; LOG must not exist'
complete -c tape -n '__tape_in merge' -l files-from -r -F -d 'More names, one per line ('\''-'\'': standard input)'
complete -c tape -n '__tape_in merge' -l null -d 'Names in LIST end with NUL ('\''find -print0'\'')'
complete -c tape -n '__tape_at merge 1' -a '(__tape_other)'
complete -c tape -n '__tape_at merge 2 +' -F
complete -c tape -n '__tape_in convert' -l format -x -a 'auto aws e11 simh' -d 'Format of IMAGE, if it is not recognised: aws, e11 or simh'
complete -c tape -n '__tape_in convert' -l resync -d 'In a SIMH image, continue after a wrong word'
complete -c tape -n '__tape_at convert 1' -a '(__tape_other)'
complete -c tape -n '__tape_at convert 2 +' -F
complete -c tape -n '__tape_in extract' -l files-from -r -F -d 'More names, one per line ('\''-'\'': standard input)'
complete -c tape -n '__tape_in extract' -l null -d 'Names in LIST end with NUL ('\''find -print0'\'')'
complete -c tape -n '__tape_in extract' -l form -x -a 'lines raw counted' -d 'lines: end each record with a line feed; raw: do not; counted: begin each with its length'
complete -c tape -n '__tape_in extract' -l text -d 'Translate records from EBCDIC (code page 037) to ISO 8859-1, which begins with ASCII'
complete -c tape -n '__tape_in extract' -l stage -x -a '(__tape_other)' -d 'Save recovered data here, and continue from it'
complete -c tape -n '__tape_in extract' -l again -d 'Repeat until a pass recovers nothing new'
complete -c tape -n '__tape_in extract' -l join -x -d 'Read the set identifier OTHER in labels as SET (may be repeated)'
complete -c tape -n '__tape_in extract' -l renumber -d 'Number files and sections by their order, if the labels do not: name the images in order'
complete -c tape -n '__tape_in extract' -l now -d 'Keep the present as the time of OUT, instead of noon (UTC) of the creation date in its labels'
complete -c tape -n '__tape_in extract' -l provenance -x -a '(__tape_other)' -d 'Also create JSONL, with lines of JSON about OUT: its labels and its checksum, and the images and blocks it was made of; JSONL must not exist'
complete -c tape -n '__tape_at extract 3' -a '(__tape_other)'
complete -c tape -n '__tape_at extract 4 +' -F
complete -c tape -n '__tape_in unpack' -l files-from -r -F -d 'More names, one per line ('\''-'\'': standard input)'
complete -c tape -n '__tape_in unpack' -l null -d 'Names in LIST end with NUL ('\''find -print0'\'')'
complete -c tape -n '__tape_in unpack' -l form -x -a 'lines raw counted auto' -d 'lines: end each record with a line feed; raw: do not; counted: begin each with its length; auto: lines for a file whose bytes are all text, raw for any other'
complete -c tape -n '__tape_in unpack' -l text -d 'Translate records from EBCDIC (code page 037) to ISO 8859-1, which begins with ASCII'
complete -c tape -n '__tape_in unpack' -l set -x -d 'Only files of this set'
complete -c tape -n '__tape_in unpack' -l file -x -d 'Only files with this number or name; '\''*'\'' in a name represents any characters'
complete -c tape -n '__tape_in unpack' -l list -d 'Print what would be done, and create nothing'
complete -c tape -n '__tape_in unpack' -l salvage -d 'Write what is readable of each incomplete file as NAME.salvaged, and where it has gaps as NAME.gaps'
complete -c tape -n '__tape_in unpack' -l join -x -d 'Read the set identifier OTHER in labels as SET (may be repeated)'
complete -c tape -n '__tape_in unpack' -l renumber -d 'Number files and sections by their order, if the labels do not: name the images in order'
complete -c tape -n '__tape_in unpack' -l now -d 'Keep the present as the time of the files, instead of noon (UTC) of the creation date in their labels'
complete -c tape -n '__tape_in unpack' -l manifest -d 'List the SHA-256 checksum of each complete file in MANIFEST.sha256, as '\''sha256sum'\'' does, and in MANIFEST.jsonl also which images its blocks came from'
complete -c tape -n '__tape_in unpack' -l verify -d 'Check the files of DIR against MANIFEST.sha256 and, if IMAGEs are named, against these; recover nothing'
complete -c tape -n '__tape_at unpack 1' -a '(__fish_complete_directories (commandline -ct))'
complete -c tape -n '__tape_at unpack 2 +' -F
complete -c tape -n '__tape_in salvage' -l files-from -r -F -d 'More names, one per line ('\''-'\'': standard input)'
complete -c tape -n '__tape_in salvage' -l null -d 'Names in LIST end with NUL ('\''find -print0'\'')'
complete -c tape -n '__tape_in salvage' -l form -x -a 'lines raw counted blocks' -d 'lines: end each record with a line feed; raw: do not; counted: begin each with its length; blocks: whole blocks'
complete -c tape -n '__tape_in salvage' -l text -d 'Translate records from EBCDIC (code page 037) to ISO 8859-1, which begins with ASCII'
complete -c tape -n '__tape_in salvage' -l now -d 'Keep the present as the time of OUT, instead of noon (UTC) of the creation date in its labels'
complete -c tape -n '__tape_in salvage' -l join -x -d 'Read the set identifier OTHER in labels as SET (may be repeated)'
complete -c tape -n '__tape_in salvage' -l renumber -d 'Number files and sections by their order, if the labels do not: name the images in order'
complete -c tape -n '__tape_in salvage' -l provenance -x -a '(__tape_other)' -d 'Also create JSONL, with lines of JSON about OUT: its labels and its checksum, and the images and blocks it was made of; JSONL must not exist'
complete -c tape -n '__tape_at salvage 3' -a '(__tape_other)'
complete -c tape -n '__tape_at salvage 4 +' -F
complete -c tape -n '__tape_in stage' -l form -x -a 'lines raw counted' -d 'lines: end each record with a line feed; raw: do not; counted: begin each with its length'
complete -c tape -n '__tape_in stage' -l damaged -d 'Use the intact beginning of a damaged stage'
complete -c tape -n '__tape_at stage 1' -a '(__tape_other)'
complete -c tape -n '__tape_at stage 2 +' -a '(__tape_other)'
complete -c tape -n '__tape_at init 1' -a '(__fish_complete_directories (commandline -ct))'
complete -c tape -n '__tape_in write' -l format -x -a 'F D S' -d 'F fixed, D variable, S spanned records'
complete -c tape -n '__tape_in write' -l block -x -d 'Longest block, 18 to 99999 (S: to 9999)'
complete -c tape -n '__tape_in write' -l record -x -d 'Record length'
complete -c tape -n '__tape_in write' -l offset -x -d 'Bytes before a block'\''s records, 0 to 99'
complete -c tape -n '__tape_in write' -l pad-full -d 'D: fill every block to --block with padding'
complete -c tape -n '__tape_in write' -l form -x -a 'lines raw' -d 'lines: one record per line; raw: F cuts the input into records, S takes it as one record'
complete -c tape -n '__tape_in write' -l date -x -d 'Creation date in the labels, such as 1985-04-23 [default: none]'
complete -c tape -n '__tape_in write' -l labels -x -a 'ascii ebcdic' -d 'Code of labels: ascii or ebcdic'
complete -c tape -n '__tape_in write' -l dry-run -d 'Create nothing, only read the files and print the volumes'
complete -c tape -n '__tape_at write 1' -a '(__fish_complete_directories (commandline -ct))'
complete -c tape -n '__tape_at write 4 +' -F
