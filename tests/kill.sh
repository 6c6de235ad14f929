#!/usr/bin/env bash
# Runs that are killed at 50 moments: without any repair the next run finds the blocks of one sync, whole.
. "$(dirname "$0")/build.sh"

IDS=12
STEPS=14
SIZES=(1 70 511 513 1024 3000 4096 9000)

# What sums answer of the blocks that are put, by length and seed.
declare -A SUM HELD
for length in "${SIZES[@]}"; do
  for seed in 0 1 2 3 4; do
    SUM[$length $seed]="length $length sha $(pattern $length $seed | sha256sum | cut -c 1-64)"
  done
done
put() {
  echo "a put $1 $2 $3"
  HELD[$1]=${SUM[$2 $3]}
}
free() {
  echo "a free $1"
  HELD[$1]=absent
}
# The script, and beside it what each of its syncs holds. Its first sync settles all ids.
state() { for ((id = 1; id <= IDS; id++)); do echo "sum $id ${HELD[$id]}"; done; }
make_script() {
  local step id j
  echo 'clients 1'
  for ((step = 1; step <= STEPS; step++)); do
    if [ $step = 1 ]; then
      for ((id = 1; id <= IDS; id++)); do put $id "${SIZES[id % 8]}" $((id % 5)); done
    else
      for j in 0 1 2 3 4; do
        put $(((step * 5 + j * 7) % IDS + 1)) "${SIZES[(step * 3 + j * 5) % 8]}" $(((step + j) % 5))
      done
      free $((step * 7 % IDS + 1))
    fi
    echo 'a sync'
    state >state$step
  done
}
make_script >script
{ echo 'clients 1'; for ((id = 1; id <= IDS; id++)); do echo "a sum $id"; done; } >reads

# look FOLDER: opens the pool of its images and reads all blocks into `found`. CHOSEN is the group that was
# chosen: the opening's group is that number plus 2.
look() {
  "$RAIDZX" "$1"/disk0 "$1"/disk1 "$1"/disk2 -- run <reads >text 2>told || failed 'a killed pool opens' "$(cat text)"
  answers <text >found
  read -r _ _ CHOSEN _ <text
  CHOSEN=$((CHOSEN - 2))
}
# holds NAME: the blocks that were found are those of the group that was chosen.
holds() {
  local wanted=state0
  [ "$CHOSEN" -le $((START + 2)) ] || wanted=state$((CHOSEN - START - 2))
  { [ "$CHOSEN" = "$START" ] || [ "$CHOSEN" -ge $((START + 2)) ]; } && cmp -s found $wanted ||
    failed "$1" "group $CHOSEN, begun at $START: $(diff found $wanted)"
}

# The whole run, and the time that it takes, in microseconds.
pool 1 3 512
before=${EPOCHREALTIME/[.,]/}
"$RAIDZX" disk0 disk1 disk2 -- run <script >text
time=$((${EPOCHREALTIME/[.,]/} - before))
START=1
look .
holds 'a whole run'
[ "$CHOSEN" = $((START + 2 + STEPS)) ] || failed 'a whole run' "group $CHOSEN"
cp found state0
START=$((CHOSEN + 2))

killed=0 rounds=0
declare -A MET
while [ $killed -lt 50 ]; do
  rounds=$((rounds + 1))
  [ $rounds -le 200 ] || failed '50 moments' "only $killed of $rounds runs were killed"
  "$RAIDZX" disk0 disk1 disk2 -- run <script >text &
  run=$!
  moment=$((time * (killed + 1) / 51))
  sleep "$((moment / 1000000)).$(printf %06d $((moment % 1000000)))"
  kill -KILL $run 2>/dev/null || true
  status=0
  { wait $run; } 2>/dev/null || status=$?
  if [ $status = 137 ]; then killed=$((killed + 1)); else time=$((time * 9 / 10)); fi

  keep killed
  look .
  holds "killed after $moment microseconds"
  MET[$((CHOSEN - START))]=1
  cp found state_next
  whole=$CHOSEN
  # Without one image, the uberblocks of the group that was under way may be out of sight.
  rm killed/disk$((rounds % 3))
  look killed
  holds "killed after $moment microseconds, without disk$((rounds % 3))"
  case $((whole - CHOSEN)) in
    0 | 1) ;;
    2) [ "$CHOSEN" = "$START" ] || failed 'without an image' "group $CHOSEN in place of $whole" ;;
    *) failed 'without an image' "group $CHOSEN in place of $whole" ;;
  esac
  START=$((whole + 2))
  mv state_next state0
done
printf 'ok %s killed runs, in %s different groups: the next run finds the blocks of one sync\n' $killed ${#MET[@]}
printf 'ok and so it does without one of the images\n'
