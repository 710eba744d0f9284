// A character device that keeps a note, which programs write and read.
#include <linux/fs.h>
#include <linux/uaccess.h>

#define NOTE_MAJOR 240
#define NOTE_CLEAR 1
#define NOTE_RESIZE 2

struct note {
	char text[64];
	size_t length;
};

struct note_request {
	u32 size;
	u32 flags;
};

static struct note note;

static int note_open(struct inode *inode, struct file *file)
{
	file->private_data = inode->i_private ? inode->i_private : &note;
	return 0;
}

static ssize_t note_read(struct file *file, char __user *buffer, size_t count, loff_t *position)
{
	struct note *own = file->private_data;
	size_t at, left;

	if (*position < 0)
		return -EINVAL;
	at = (size_t)*position;
	if (at >= own->length)
		return 0;
	left = min(count, own->length - at);
	if (copy_to_user(buffer, own->text + at, left))
		return -EFAULT;
	*position += (loff_t)left;
	return (ssize_t)left;
}

static ssize_t note_write(struct file *file, const char __user *buffer, size_t count, loff_t *position)
{
	struct note *own = file->private_data;
	size_t taken = min(count, sizeof(own->text));

	if (copy_from_user(own->text, buffer, taken))
		return -EFAULT;
	own->length = taken;
	*position = (loff_t)taken;
	return (ssize_t)taken;
}

static long note_ioctl(struct file *file, unsigned int command, unsigned long argument)
{
	struct note_request __user *from = (struct note_request __user *)argument;
	struct note *own = file->private_data;
	struct note_request request;

	switch (command) {
	case NOTE_CLEAR:
		own->length = 0;
		return 0;
	case NOTE_RESIZE:
		if (copy_from_user(&request, from, sizeof(request)))
			return -EFAULT;
		if (request.size > sizeof(own->text))
			return -EINVAL;
		own->length = request.size;
		return 0;
	default:
		return -ENOTTY;
	}
}

static const struct file_operations note_operations = {
	.owner = THIS_MODULE,
	.open = note_open,
	.read = note_read,
	.write = note_write,
	.unlocked_ioctl = note_ioctl,
};

static int __init note_init(void)
{
	return register_chrdev(NOTE_MAJOR, "note", &note_operations);
}

static void __exit note_exit(void)
{
	unregister_chrdev(NOTE_MAJOR, "note");
}

module_init(note_init);
module_exit(note_exit);
MODULE_LICENSE("GPL");
