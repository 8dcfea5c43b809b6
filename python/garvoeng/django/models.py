"""The user handles of the site's users, and the rows of `garvoeng.sql`, for reading only: `garvoeng.django.server` writes them."""
from django.conf import settings
from django.db import models


class Account(models.Model):
    """A user and the user handle: 32 random bytes that name nobody (WebAuthn Level 2, section 5.4.3)."""

    user = models.OneToOneField(settings.AUTH_USER_MODEL, on_delete=models.CASCADE, related_name="garvoeng_account")
    handle = models.BinaryField(max_length=64, unique=True)


class Credential(models.Model):
    """The row of a credential. Times are in seconds since 1970."""

    id = models.BinaryField(primary_key=True)
    user_handle = models.BinaryField(max_length=64)
    public_key = models.BinaryField()
    sign_count = models.BigIntegerField()
    backup_eligible = models.IntegerField(null=True)
    retired = models.IntegerField()
    backed_up = models.IntegerField(null=True)
    transports = models.TextField(default="")
    aaguid = models.BinaryField(null=True)
    created_at = models.BigIntegerField()
    used_at = models.BigIntegerField(null=True)

    class Meta:
        managed = False
        db_table = "garvoeng_credential"
