# Completion for bash of the command ecc200, written by tools/completions.
_ecc200() {
  local word=${COMP_WORDS[COMP_CWORD]}
  local before=${COMP_WORDS[COMP_CWORD - 1]} words=
  case ${COMP_WORDS[1]},$before in
    normal,--format) words='png svg pdf txt blocks' ;;
    write,--form) words='ascii shorter smallest' ;;
    write,--size) words='10x10 12x12 8x18 14x14 16x16 8x32 12x26 18x18 8x48 20x20 12x36 22x22 8x64 24x24 16x36 8x80 26x26 20x36 16x48 12x64 8x96 20x44 8x120 32x32 16x64 26x40 22x48 12x88 24x48 8x144 26x48 20x64 36x36 24x64 40x40 26x64 44x44 48x48 52x52 64x64 72x72 80x80 88x88 96x96 104x104 120x120 132x132 144x144' ;;
    write,--shape) words='square rectangle extended any' ;;
    write,--format) words='png svg pdf txt blocks' ;;
    sizes,--shape) words='square rectangle extended any' ;;
  esac
  if [ -z "$words" ]; then
    case $COMP_CWORD,$word,${COMP_WORDS[1]} in
      1,*) words='read join check normal compare explain write sizes --help --version' ;;
      *,-*,read) words='-h --help --doubtful -r --recursive --jobs -H --with-filename --no-filename --json --hex --escapes --raw --charset --unknown --csv --elements --bom --quality --usual --border --any-way --most --all --time --unread --margin' ;;
      *,-*,join) words='-h --help --doubtful -r --recursive --jobs --json --hex --escapes --raw --charset --unknown --usual --border --any-way --most --all --time --unread --margin' ;;
      *,-*,check) words='-h --help --doubtful -r --recursive --jobs -H --with-filename --no-filename --json --usual --border --any-way --most --all --time --unread --margin' ;;
      *,-*,normal) words='-h --help --doubtful -r --recursive --jobs -H --with-filename --no-filename --shorter --usual --border --any-way --most --all --time --unread --margin -o --output --format --module --dpi --quiet-zone --caption --sheet' ;;
      *,-*,compare) words='-h --help --usual --border --any-way --most --all --time --unread --margin' ;;
      *,-*,explain) words='-h --help --doubtful -r --recursive --jobs -H --with-filename --no-filename --json --usual --border --any-way --most --all --time --unread --margin' ;;
      *,-*,write) words='-h --help --gs1 --hex --escapes --raw --bytes --csv --column --charset --eci --unknown --blank --append --programming --form --basic --size --shape -o --output --format --module --dpi --quiet-zone --caption --sheet' ;;
      *,-*,sizes) words='-h --help --shape --json' ;;
    esac
  fi
  # shellcheck disable=SC2207
  COMPREPLY=($(compgen -W "$words" -- "$word"))
}
complete -o bashdefault -o default -F _ecc200 ecc200
