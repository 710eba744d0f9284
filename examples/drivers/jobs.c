// A queue of jobs: a list in the order of their priorities, which a lock guards.
#include <linux/errno.h>
#include <linux/list.h>
#include <linux/slab.h>
#include <linux/spinlock.h>

struct job {
	struct list_head list;
	unsigned int priority;
	void (*run)(struct job *job);
};

struct queue {
	struct list_head jobs;
	spinlock_t lock;
	unsigned int count;
};

static int queue_add(struct queue *queue, unsigned int priority, void (*run)(struct job *job))
{
	struct job *job = kmalloc(sizeof(*job), GFP_KERNEL);
	struct job *other;

	if (!job)
		return -ENOMEM;
	job->priority = priority;
	job->run = run;
	spin_lock(&queue->lock);
	list_for_each_entry(other, &queue->jobs, list) {
		if (other->priority < priority)
			break;
	}
	list_add_tail(&job->list, &other->list);
	queue->count++;
	spin_unlock(&queue->lock);
	return 0;
}

static struct job *queue_take(struct queue *queue)
{
	struct job *job = NULL;

	spin_lock(&queue->lock);
	if (!list_empty(&queue->jobs)) {
		job = list_first_entry(&queue->jobs, struct job, list);
		list_del(&job->list);
		queue->count--;
	}
	spin_unlock(&queue->lock);
	return job;
}

static unsigned int queue_run(struct queue *queue)
{
	struct job *job;
	unsigned int count = 0;

	while ((job = queue_take(queue))) {
		job->run(job);
		kfree(job);
		count++;
	}
	return count;
}

static void queue_drop(struct queue *queue, void (*run)(struct job *job))
{
	struct job *job, *next;

	spin_lock(&queue->lock);
	list_for_each_entry_safe(job, next, &queue->jobs, list) {
		if (job->run != run)
			continue;
		list_del(&job->list);
		kfree(job);
		queue->count--;
	}
	spin_unlock(&queue->lock);
}

const struct queue_calls {
	int (*add)(struct queue *queue, unsigned int priority, void (*run)(struct job *job));
	unsigned int (*run)(struct queue *queue);
	void (*drop)(struct queue *queue, void (*run)(struct job *job));
} queue_calls = { .add = queue_add, .run = queue_run, .drop = queue_drop };
