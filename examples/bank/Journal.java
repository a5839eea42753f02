@RegionLock("L is this protects Instance")
class Journal {
  int entries;
  int last;
  synchronized void record() { entries += 1; last = entries; }
  int size() { return entries; }
}
