# Reads the completions in f/_gx and prints each line of standard input as zsh completes it, at a terminal of its own.
zmodload zsh/zpty
zpty -b shell zsh -f -i
take() {
    local part all=
    repeat 400; do
        if zpty -r -t shell part 2>/dev/null; then all+=$part; else sleep 0.02; fi
        [[ $all == *$1* ]] && break
    done
    print -r -- "$all"
}
zpty -w shell 'PS1= PS2= ; stty -echo; fpath=($PWD/f $fpath); autoload -Uz compinit; compinit -u -D; setopt no_beep no_auto_list no_list_ambiguous'
zpty -w shell 'tell() { print -r -- "<<$BUFFER>>"; BUFFER=; zle -I }; zle -N tell; bindkey "^X" tell; print rea""dy'
take ready > /dev/null
while read -r line; do
    zpty -w -n shell "$line"$'\t\x18'
    take '>>' | grep -ao '<<[^>]*>>' | tail -n 1
done
zpty -d shell
