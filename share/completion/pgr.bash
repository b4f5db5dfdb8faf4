# Completion of the command pgr for bash: `. share/completion/pgr.bash`, or copy it to a folder that bash-completion reads.

# words: written by tools/write-pages from docs/FUNCTIONS.md and crates/pgr_words/specs, don't edit by hand
_pgr_functions='pgr_dijkstra pgr_dijkstraCost pgr_dijkstraCostMatrix pgr_drivingDistance pgr_withPoints pgr_trsp pgr_KSP
  pgr_aStar pgr_maxFlow pgr_edmondsKarp minCut pgr_contraction pgr_connectedComponents pgr_strongComponents
  pgr_biconnectedComponents pgr_articulationPoints pgr_bridges'

_pgr_options() {
  case $1 in
    pgr_dijkstra|pgr_dijkstraCost) echo 'edges start end combinations directed' ;;
    pgr_dijkstraCostMatrix) echo 'edges vids directed' ;;
    pgr_drivingDistance) echo 'edges start distance directed equicost' ;;
    pgr_withPoints) echo 'edges points start end combinations directed driving_side details' ;;
    pgr_trsp) echo 'edges restrictions start end combinations directed' ;;
    pgr_KSP) echo 'edges start end K combinations directed' ;;
    pgr_aStar) echo 'edges start end combinations directed heuristic factor' ;;
    pgr_maxFlow|pgr_edmondsKarp|minCut) echo 'edges start end' ;;
    pgr_contraction) echo 'edges order max_cycles forbidden directed' ;;
    pgr_connectedComponents|pgr_strongComponents|pgr_biconnectedComponents|pgr_articulationPoints|pgr_bridges) echo 'edges' ;;
  esac
}

_pgr_values() {
  case $1 in
    directed|details|equicost) echo 'true false' ;;
    driving_side) echo 'b r l' ;;
    heuristic) echo '0 1 2 3 4 5' ;;
  esac
}

_pgr_files='edges points restrictions combinations'
# words: end of what tools/write-pages writes

_pgr() {
  local line=${COMP_LINE:0:COMP_POINT} word value name words
  read -ra words <<< "$line"
  word=''
  [[ $line == *[[:space:]] ]] || word=${words[-1]}
  compopt +o nospace 2>/dev/null
  if (( ${#words[@]} == 1 )) || { (( ${#words[@]} == 2 )) && [[ -n $word ]]; }; then
    COMPREPLY=($(compgen -W "$_pgr_functions" -- "$word"))
    return
  fi
  if [[ $word == --*=* ]]; then
    # bash splits words at the equals sign, so that what is completed is the value alone
    value=${word#*=} name=${word%%=*}
    if [[ " $_pgr_files " == *" ${name#--} "* ]]; then
      compopt -o filenames 2>/dev/null
      COMPREPLY=($(compgen -f -- "$value"))
    else
      COMPREPLY=($(compgen -W "$(_pgr_values "${name#--}")" -- "$value"))
    fi
    return
  fi
  words=" $line "
  local left=''
  for name in $(_pgr_options "${COMP_WORDS[1]}"); do
    [[ $words == *" --$name="* ]] || left+=" --$name="
  done
  compopt -o nospace 2>/dev/null
  COMPREPLY=($(compgen -W "$left" -- "$word"))
}

complete -F _pgr pgr
