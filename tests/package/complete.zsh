# Prints what becomes of the line `grove ARGUMENTS` in zsh once Tab is pressed behind it.
#   usage: zsh -f complete.zsh FOLDER ARGUMENTS    (the folder has the function _grove)
zmodload zsh/zpty
zpty shell "TERM=dumb zsh -f -i"
zpty -w shell "PROMPT=; unsetopt zle_bracketed_paste prompt_cr prompt_sp; unset zle_bracketed_paste
fpath=(${(q)1} \$fpath); autoload -U compinit; compinit -u -D
tabbed() { zle complete-word; print -r -- \"COMPLETED\":\$BUFFER:; exit }
zle -N tabbed; bindkey '^I' tabbed; print -r -- BE''GUN"
zpty -r -m shell text '*BEGUN*'
zpty -w -n shell "grove $2"$'\t'
zpty -r -m shell text '*COMPLETED:*:*'
text=${text##*COMPLETED:}
print -r -- ${text%%:*}
