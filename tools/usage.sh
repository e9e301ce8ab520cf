# tell_usage FILE ARGUMENTS..: prints what the file begins with and ends, if the first of the arguments asks for that.
tell_usage() {
    case ${2-} in
        -h | --help) sed -n '2,/^[^#]/{/^#/s/^#* \{0,1\}//p}' "$1"; exit 0 ;;
    esac
}
