import django.db.models.deletion
from django.conf import settings
from django.db import migrations, models

from garvoeng.django.server import rows_of


def prepare(apps, schema_editor):
    rows_of(schema_editor.connection).prepare()


class Migration(migrations.Migration):
    initial = True
    dependencies = [migrations.swappable_dependency(settings.AUTH_USER_MODEL)]
    operations = [
        migrations.CreateModel("Account", [
            ("id", models.BigAutoField(primary_key=True, serialize=False, auto_created=True, verbose_name="ID")),
            ("handle", models.BinaryField(max_length=64, unique=True)),
            ("user", models.OneToOneField(on_delete=django.db.models.deletion.CASCADE, related_name="garvoeng_account",
                                          to=settings.AUTH_USER_MODEL)),
        ]),
        migrations.CreateModel("Credential", [
            ("id", models.BinaryField(primary_key=True, serialize=False)),
            ("user_handle", models.BinaryField(max_length=64)),
            ("public_key", models.BinaryField()),
            ("sign_count", models.BigIntegerField()),
            ("backup_eligible", models.IntegerField(null=True)),
            ("retired", models.IntegerField()),
            ("backed_up", models.IntegerField(null=True)),
            ("transports", models.TextField(default="")),
            ("aaguid", models.BinaryField(null=True)),
            ("created_at", models.BigIntegerField()),
            ("used_at", models.BigIntegerField(null=True)),
        ], options={"db_table": "garvoeng_credential", "managed": False}),
        migrations.RunPython(prepare, migrations.RunPython.noop, hints={"model_name": "credential"}),
    ]
