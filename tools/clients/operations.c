/* operations ADDRESS ENTRIES
 *
 * Walks through the operations of NFS by libnfs, and looks at each result. ADDRESS is as libnfs has it:
 *   nfs://127.0.0.1/?version=3&nfsport=PORT&mountport=PORT&uid=0&gid=0
 * It works in a directory of its own, in which it makes so many ENTRIES at once, and removes all. It prints a line for each step, and at last
 * how many gave something else than they should; the status is 0 where none did. */
#include <errno.h>
#include <fcntl.h>
#include <poll.h>
#include <stdarg.h>
#include <stdint.h>
#include <stdio.h>
#include <stdlib.h>
#include <string.h>
#include <sys/stat.h>
#include <sys/statvfs.h>
#include <sys/time.h>
#include <unistd.h>

/* (it takes struct timeval for known) */
#include <nfsc/libnfs.h>

enum { LONG = 300000, PIECE = 8192, IN_FLIGHT = 64, WAIT_MILLISECONDS = 20000 };

static struct nfs_context *nfs;
static char folder[64], path[192], other_path[192];
static char written[LONG], found[LONG];
static int wrong, waited_for, failed;

static void want(const char *what, long long is, long long should_be) {
  printf("%-40s %lld", what, is);
  if (is != should_be) {
    printf("   WRONG, it should be %lld: %s", should_be, nfs_get_error(nfs));
    wrong++;
  }
  printf("\n");
}

/* The path of a name in the folder. */
static const char *at(char *into, const char *name) {
  snprintf(into, sizeof path, "%s/%s", folder, name);
  return into;
}

static const char *entry(int number) {
  char name[64];
  snprintf(name, sizeof name, "entry-with-a-long-name-%d", number);
  return at(other_path, name);
}

static struct nfs_stat_64 look(const char *what) {
  struct nfs_stat_64 stat;
  memset(&stat, 0, sizeof stat);
  want("look", nfs_lstat64(nfs, what, &stat), 0);
  return stat;
}

/* ---- the steps */

static void write_and_read(void) {
  struct nfsfh *file;
  long long done = 0, count;
  want("creat", nfs_creat(nfs, at(path, "file"), 0644, &file), 0);
  while (done < LONG && (count = nfs_pwrite(nfs, file, done, LONG - done, written + done)) > 0)
    done += count;
  want("pwrite of 300,000 bytes", done, LONG);
  want("fsync", nfs_fsync(nfs, file), 0);
  nfs_close(nfs, file);
  struct nfs_stat_64 stat = look(path);
  want("size", stat.nfs_size, LONG);
  want("mode", stat.nfs_mode & 07777, 0644);
  want("links", stat.nfs_nlink, 1);
  want("open", nfs_open(nfs, path, O_RDONLY, &file), 0);
  done = 0;
  while (done < LONG && (count = nfs_pread(nfs, file, done, LONG - done, found + done)) > 0)
    done += count;
  want("pread of all", done, LONG);
  want("the same bytes", memcmp(written, found, LONG), 0);
  want("pread behind the end", nfs_pread(nfs, file, LONG + 1, 10, found), 0);
  nfs_close(nfs, file);
}

static void cut_and_fill(void) {
  static const char zeros[10];
  struct nfsfh *file;
  want("truncate to 10", nfs_truncate(nfs, path, 10), 0);
  want("size", look(path).nfs_size, 10);
  want("truncate to 20", nfs_truncate(nfs, path, 20), 0);
  want("open", nfs_open(nfs, path, O_RDONLY, &file), 0);
  want("pread", nfs_pread(nfs, file, 0, 20, found), 20);
  want("ten bytes as they were", memcmp(found, written, 10), 0);
  want("and ten zeros", memcmp(found + 10, zeros, 10), 0);
  nfs_close(nfs, file);
}

static void attributes(void) {
  struct timeval times[2] = {{1000, 0}, {2000, 0}};
  want("chmod 0600", nfs_chmod(nfs, path, 0600), 0);
  want("chown 5:6", nfs_chown(nfs, path, 5, 6), 0);
  want("utimes", nfs_utimes(nfs, path, times), 0);
  struct nfs_stat_64 stat = look(path);
  want("mode", stat.nfs_mode & 07777, 0600);
  want("uid", stat.nfs_uid, 5);
  want("gid", stat.nfs_gid, 6);
  want("atime", stat.nfs_atime, 1000);
  want("mtime", stat.nfs_mtime, 2000);
  want("access for reading", nfs_access(nfs, path, R_OK), 0);
}

static void links(void) {
  struct nfs_stat_64 stat;
  want("symlink", nfs_symlink(nfs, "file", at(other_path, "soft")), 0);
  want("readlink", nfs_readlink(nfs, other_path, found, 100), 0);
  want("its target", strcmp(found, "file"), 0);
  want("is a link", S_ISLNK(look(other_path).nfs_mode), 1);
  want("stat through the link", nfs_stat64(nfs, other_path, &stat), 0);
  want("size", stat.nfs_size, 20);
  want("link", nfs_link(nfs, path, at(other_path, "hard")), 0);
  want("links", look(path).nfs_nlink, 2);
  want("rename onto the same file", nfs_rename(nfs, other_path, path), 0);
  want("unlink of one name", nfs_unlink(nfs, path), 0);
  want("links by the other", look(other_path).nfs_nlink, 1);
  want("rename", nfs_rename(nfs, other_path, path), 0);
  want("the old name is gone", nfs_lstat64(nfs, other_path, &stat), -ENOENT);
}

static void refusals(void) {
  struct nfsfh *file;
  struct nfs_stat_64 stat;
  struct statvfs system;
  want("mkdir of a name that is there", nfs_mkdir(nfs, folder), -EEXIST);
  want("creation of a new file alone", nfs_open2(nfs, at(other_path, "alone"), O_CREAT | O_EXCL | O_WRONLY, 0644, &file), 0);
  nfs_close(nfs, file);
  want("and again", nfs_open2(nfs, other_path, O_CREAT | O_EXCL | O_WRONLY, 0644, &file), -EEXIST);
  want("unlink", nfs_unlink(nfs, other_path), 0);
  want("mknod of a fifo is refused", nfs_mknod(nfs, at(other_path, "fifo"), S_IFIFO | 0644, 0) < 0, 1);
  want("a name that isn't there", nfs_stat64(nfs, at(other_path, "none"), &stat), -ENOENT);
  want("rmdir of a folder with entries", nfs_rmdir(nfs, folder), -ENOTEMPTY);
  want("statvfs", nfs_statvfs(nfs, folder, &system), 0);
}

static void many_entries(int entries) {
  struct nfsfh *file;
  struct nfsdir *directory;
  int made = 0, listed = 0, removed = 0;
  while (made < entries && nfs_creat(nfs, entry(made), 0644, &file) == 0) {
    nfs_close(nfs, file);
    made++;
  }
  want("files made", made, entries);
  want("opendir", nfs_opendir(nfs, folder, &directory), 0);
  while (nfs_readdir(nfs, directory))
    listed++;
  nfs_closedir(nfs, directory);
  want("names listed (with . and .., file and soft)", listed, entries + 4);
  while (removed < entries && nfs_unlink(nfs, entry(removed)) == 0)
    removed++;
  want("files removed", removed, entries);
}

static void one_is_written(int error, struct nfs_context *context, void *data, void *given) {
  (void)context, (void)data, (void)given;
  waited_for--;
  failed += error < 0;
}

static void many_writes_at_once(void) {
  struct nfsfh *file;
  want("creat", nfs_creat(nfs, at(other_path, "at_once"), 0644, &file), 0);
  for (int n = 0; n < IN_FLIGHT; n++)
    waited_for += nfs_pwrite_async(nfs, file, (uint64_t)n * PIECE, PIECE, written + n * 1000, one_is_written, NULL) == 0;
  while (waited_for > 0) {
    struct pollfd ready = {nfs_get_fd(nfs), nfs_which_events(nfs), 0};
    if (poll(&ready, 1, WAIT_MILLISECONDS) <= 0 || nfs_service(nfs, ready.revents) < 0)
      break;
  }
  want("64 writes at once, not answered", waited_for, 0);
  want("failed", failed, 0);
  nfs_close(nfs, file);
  want("size", look(other_path).nfs_size, IN_FLIGHT * PIECE);
  want("unlink", nfs_unlink(nfs, other_path), 0);
}

int main(int count, char **words) {
  if (count != 3)
    return fprintf(stderr, "operations ADDRESS ENTRIES\n"), 2;
  nfs = nfs_init_context();
  struct nfs_url *address = nfs_parse_url_dir(nfs, words[1]);
  if (!address)
    return printf("no address: %s\n", nfs_get_error(nfs)), 2;
  nfs_set_timeout(nfs, WAIT_MILLISECONDS);
  for (int n = 0; n < LONG; n++)
    written[n] = (char)(n * 31 + n / 977);
  snprintf(folder, sizeof folder, "/operations%d", (int)getpid());
  want("mount", nfs_mount(nfs, address->server, address->path), 0);
  want("mkdir", nfs_mkdir(nfs, folder), 0);
  if (wrong)
    return 1;
  write_and_read();
  cut_and_fill();
  attributes();
  links();
  refusals();
  many_entries(atoi(words[2]));
  many_writes_at_once();
  want("unlink of the file", nfs_unlink(nfs, path), 0);
  want("unlink of the link", nfs_unlink(nfs, at(other_path, "soft")), 0);
  want("rmdir", nfs_rmdir(nfs, folder), 0);
  printf("%d wrong\n", wrong);
  nfs_umount(nfs);
  nfs_destroy_context(nfs);
  return wrong != 0;
}
