# shellcheck shell=bash disable=SC2034,SC2154  # work and row are those of the script
# A Slurm of one node that tests/workflow_slurm.sh starts for itself below $work, and what it asks of it.
slurm_pids=()

# stop_slurm: cancels its jobs, waits until they are gone, and stops its daemons by their ids
stop_slurm() {
  local id
  [ "${#slurm_pids[@]}" -gt 0 ] || return 0
  timeout 10 scancel --user="$(id -un)" 2> /dev/null
  for _ in $(seq 20); do
    [ -n "$(timeout 10 squeue --noheader 2> /dev/null)" ] || break
    sleep 0.5
  done
  for id in "${slurm_pids[@]}"; do
    kill "$id" 2> /dev/null
    wait "$id" 2> /dev/null
  done
  slurm_pids=()
}

# slurm_settings DIRECTORY HOST PORT PORT: settings of a cluster of one node, of this user, without
# accounting
slurm_settings() {
  cat << END
ClusterName=test
SlurmctldHost=$2(127.0.0.1)
SlurmctldPort=$3
SlurmdPort=$4
CommunicationParameters=NoInAddrAny,NoCtldInAddrAny
SlurmUser=$(id -un)
SlurmdUser=$(id -un)
AuthType=auth/munge
AuthInfo=socket=$1/munge/socket
CredType=cred/munge
StateSaveLocation=$1/state
SlurmdSpoolDir=$1/spool
SlurmctldPidFile=$1/slurmctld.pid
SlurmdPidFile=$1/slurmd.pid
ProctrackType=proctrack/linuxproc
TaskPlugin=task/none
JobAcctGatherType=jobacct_gather/none
AccountingStorageType=accounting_storage/none
SelectType=select/cons_tres
SelectTypeParameters=CR_CPU_Memory
SlurmdParameters=config_overrides
MpiDefault=none
MailProg=/bin/true
ReturnToService=2
NodeName=$2 NodeAddr=127.0.0.1 CPUs=4 RealMemory=2000 State=UNKNOWN
PartitionName=main Nodes=$2 Default=YES MaxTime=60 State=UP
END
}

# start_slurm: munged, slurmctld and slurmd in a directory of their own; returns 1 if no node comes
# up
start_slurm() {
  local folder=$work/slurm host ports
  host=$(uname -n)
  host=${host%%.*}
  mkdir -p "$folder/state" "$folder/spool" "$folder/munge"
  chmod 755 "$work" "$folder" "$folder/munge"
  (umask 077 && head -c 128 /dev/urandom > "$folder/munge/key")
  read -r -a ports < <(python3 "$tree/tests/workflow/free_ports.py")
  slurm_settings "$folder" "$host" "${ports[@]}" > "$folder/slurm.conf"
  export SLURM_CONF=$folder/slurm.conf
  munged --foreground --force --key-file="$folder/munge/key" --socket="$folder/munge/socket" --pid-file="$folder/munge/pid" \
    --log-file="$folder/munge/log" --seed-file="$folder/munge/seed" > "$folder/munged.out" 2>&1 &
  slurm_pids=("$!")
  for _ in $(seq 50); do
    [ ! -S "$folder/munge/socket" ] || break
    sleep 0.1
  done
  slurmctld -D > "$folder/slurmctld.out" 2>&1 &
  slurm_pids=("$!" "${slurm_pids[@]}")
  slurmd -D > "$folder/slurmd.out" 2>&1 &
  slurm_pids=("$!" "${slurm_pids[@]}")
  for _ in $(seq 60); do
    [ "$(timeout 10 sinfo --noheader --format %T 2> /dev/null)" = idle ] && return 0
    sleep 0.5
  done
  tail -n 20 "$folder"/*.out
  return 1
}

# status_of JOB WANTED: the profile's script reports this status for a job, within some seconds
status_of() {
  local got=''
  for _ in $(seq 20); do
    got=$(profiles/slurm/cluster_status "$1" 2> /dev/null)
    [ "$got" != "$2" ] || return 0
    sleep 0.5
  done
  fail "job $1 is '$got', not $2"
}

# cluster_scripts: the profile's two scripts on jobs that end, fail, are cancelled, wait forever,
# and are unknown
cluster_scripts() {
  local ends fails stays waits
  row='the scripts of the profile'
  ends=$(sbatch --parsable --output=/dev/null --time=5 --mem=10 --wrap true)
  fails=$(sbatch --parsable --output=/dev/null --time=5 --mem=10 --wrap false)
  stays=$(sbatch --parsable --output=/dev/null --time=5 --mem=10 --wrap 'sleep 100')
  waits=$(sbatch --parsable --output=/dev/null --time=500 --mem=10 --wrap true)
  status_of "$ends" success
  status_of "$fails" failed
  status_of "$stays;test" running
  profiles/slurm/cluster_cancel "$stays" "$ends"
  status_of "$stays" failed
  status_of "$waits" failed
  status_of 4000000 failed
  [ -z "$(squeue --noheader)" ] || fail 'a job is still there'
}
