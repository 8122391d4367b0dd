# What the steps have in common. PIN is that of SID and of Admin1.
PIN=secret
run() {
    echo "+ $*"
    "$@" 2>&1 || echo "= status $?"
}
# sector LBA: `denied`, or the first digits of its MD5.
sector() {
    dd if=/dev/sda bs=512 skip="$1" count=1 iflag=direct 2>/tmp/said | md5sum | cut -c 1-8 >/tmp/sum
    if grep -q rror /tmp/said; then echo "sector $1: read denied"; else echo "sector $1: $(cat /tmp/sum)"; fi
}
# writes LBA: `denied` or `written`: eight sectors of /tmp/random.
writes() {
    if dd if=/tmp/random of=/dev/sda bs=512 seek="$1" count=8 oflag=direct 2>/dev/null; then
        echo "sector $1: written"
    else
        echo "sector $1: write denied"
    fi
}
random() { dd if=/dev/urandom of=/tmp/random bs=1M count="$1" 2>/dev/null; }
faults() {
    dmesg | grep -i -E 'ata.*(error|fail|exception|timeout|frozen)|nobody cared'
    echo "guest: faults that the kernel tells stand above"
}
